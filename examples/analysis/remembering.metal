sm remembering {
  state decl any_pointer v;

  start:    { done } ==> true=is_done, false=not_done
          | { kfree(v) } ==> v.freed;
  is_done:  { done } ==> true=is_done, false=stop
          | { kfree(v) } ==> v.freed;
  not_done: { done } ==> true=stop, false=not_done
          | { kfree(v) } ==> v.freed;

  v.freed:  { *v } ==> v.stop, { err("using %s after free!", mc_identifier(v)); };
}
