sm once {
  state decl any_pointer l;

  start:    { lock(l) } ==> l.locked
          | { 0 } ==> true=stop, false=start
          | { 1 } ==> true=start, false=stop;
  l.locked: { lock(l) } ==> l.locked, { err("%s is taken twice", mc_identifier(l)); }
          | { unlock(l) } ==> l.stop
          | $end_of_path$ ==> l.stop, { err("%s is still held", mc_identifier(l)); };
}
