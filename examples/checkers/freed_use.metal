// A pointer that was freed is used.
sm freed_use {
  state decl any_pointer v;
  decl any_arguments how;
  decl any_expr x, n;

  start:   { kfree(v) } || { kvfree(v) } || { vfree(v) } || { free(v) } ==> v.freed
         | { exit(how) } || { _exit(how) } || { abort() } || { longjmp(how) } || { panic(how) } ==> stop
         | { 0 } ==> true=stop, false=start
         | { 1 } ==> true=start, false=stop;

  v.freed: { *v } || { v[x] }
               ==> v.stop, { err("%s is used after it was freed", mc_identifier(v)); }
         | { memcpy(v, x, n) } || { memcpy(x, v, n) } || { memset(v, x, n) } || { strlen(v) }
               ==> v.stop, { err("%s is handed on after it was freed", mc_identifier(v)); };
}
