sm freed_by_hooks {
  state decl any_pointer v;
  decl any_expr h;

  start:   { h.deallocate(v) } || { (*h.deallocate)(v) } ==> v.freed;
  v.freed: { *v } ==> v.stop, { err("%s is used after it was freed", mc_identifier(v)); };
}
