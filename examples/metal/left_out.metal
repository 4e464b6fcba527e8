sm freed_names {
  state decl any_pointer v;
  decl any_expr x, y;

  start:   { overwrite(x, y) } ==> start
         | { free(v) } ==> v.freed;
  v.freed: { free(v) } ==> v.stop, { err("%s is freed twice", mc_identifier(v)); };
}
