sm held {
  state decl any_pointer v;
  decl any_expr n;

  start:  { v = grab(n) } ==> v.held;
  v.held: { drop(v) } ==> v.stop
        | $end_of_path$ ==> v.stop, { err("%s isn't dropped", mc_identifier(v)); };
}
