sm replaced {
  state decl any_pointer v;

  start:   { kfree(v) } || { replace(v) } ==> v.freed;
  v.freed: { *v } ==> v.stop, { err("using %s after free!", mc_identifier(v)); };
}
