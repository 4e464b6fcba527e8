sm null_or_exit {
  state decl any_pointer v;
  decl any_arguments how;

  start:   { v = malloc(how) } ==> v.maybe
         | { exit(how) } ==> stop;
  v.maybe: { v } ==> true=v.stop, false=v.null;
  v.null:  { *v } ==> v.stop, { err("%s is null", mc_identifier(v)); };
}
