sm unfreed {
  state decl any_pointer v;
  decl any_fn_call other;
  decl any_arguments rest;
  decl any_expr x, y;

  start:  { malloc(x) } ==> got;
  got:    { v = x } ==> v.held
        | { malloc(x) } ==> got
        | { y = x } || { other(rest) } ==> start
        | { x } ==> true=start, false=start;
  v.held: { free(v) } ==> v.stop
        | $end_of_path$ ==> v.stop, { err("%s is not freed", mc_identifier(v)); };
}
