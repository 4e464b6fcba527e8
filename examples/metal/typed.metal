sm typed {
  state decl struct request *r;
  decl unsigned int size;
  decl any_expr buffer;

  start:    { submit(r) } ==> r.queued;
  r.queued: { submit(r) } ==> r.queued, { err("%s is queued twice", mc_identifier(r)); }
          | { finish(r) } ==> r.stop;
  start:    { copy(buffer, size) } ==> start, { err("the size %s is a 32-bit number", mc_identifier(size)); };
}
