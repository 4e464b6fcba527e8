sm null {
  state decl any_pointer v;
  decl any_arguments how;
  decl any_expr x;

  start:   { v = malloc(how) } ==> v.maybe;
  v.maybe: { v } || { v = x } ==> true=v.stop, false=v.null
         | { *v } || { v[x] } ==> v.stop, { err("%s may be null", mc_identifier(v)); };
  v.null:  { *v } || { v[x] } ==> v.stop, { err("%s is null", mc_identifier(v)); };
}
