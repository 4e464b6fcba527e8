sm returned {
  state decl any_pointer p;
  decl any_fn_call use;
  decl any_arguments rest;
  decl any_expr x, y;

  start:  { p = grab(x) } && ${ mc_is_local(p) } ==> p.held;
  p.held: { p } ==> p.said
        | $end_of_path$ ==> p.stop, { err("%s isn't dropped", mc_identifier(p)); };
  p.said: { p } ==> true=p.held, false=p.stop
        | { drop(p) } ==> p.stop
        | { x = p } || { p = x } ==> p.stop
        | { *p } || { p[x] } || { use(p, rest) } || { use(x, p, rest) } || { use(x, y, p, rest) } ==> p.held
        | $end_of_path$ ==> p.stop;
}
