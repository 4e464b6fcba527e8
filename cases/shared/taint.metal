sm taint {
 state decl any_expr v;
 start: { set(v) } ==> v.set;
 v.set: { use(v) } ==> v.set, { err("%s is set", mc_identifier(v)); }
      | { clear(v) } ==> v.stop;
}
