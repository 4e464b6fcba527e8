sm held_here {
  state decl any_pointer v;
  decl any_fn_call use;
  decl any_arguments how;
  decl any_expr n, x;

  start:  { v = grab(n) } && ${ mc_is_local(v) } || { v = make(n) } && ${ mc_is_local(v) } ==> v.held;
  v.held: { v } ==> v.said
        | $end_of_path$ ==> v.stop, { err("%s isn't dropped", mc_identifier(v)); };
  v.said: { drop(v) } || { enqueue(x, v) } ==> v.stop
        | { x = v } || { v = x } ==> v.stop
        | { *v } || { use(v, how) } || { use(x, v, how) } ==> v.held
        | $end_of_path$ ==> v.stop;
}
