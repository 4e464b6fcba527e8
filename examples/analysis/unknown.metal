sm unknown {
  state decl any_pointer l;

  start:    { lock(l) } ==> l.locked
          | { unlock(l) } ==> l.stop, { err("%s isn't known to be locked", mc_identifier(l)); };
  l.locked: { unlock(l) } ==> l.stop;
}
