// What an allocation gave is used without a test, or where a test has shown that it is null. The allocation may stand behind a cast: a
// global state waits for its assignment.
sm unchecked_alloc {
  state decl any_pointer v;
  decl any_fn_call other;
  decl any_arguments how;
  decl any_expr x, y;

  start:   { kmalloc(how) } || { kzalloc(how) } || { vmalloc(how) } || { malloc(how) } || { calloc(how) } ==> got
         | { exit(how) } || { _exit(how) } || { abort() } || { longjmp(how) } || { panic(how) } ==> stop
         | { 0 } ==> true=stop, false=start
         | { 1 } ==> true=start, false=stop;
  got:     { v = x } ==> v.untested
         | { kmalloc(how) } || { kzalloc(how) } || { vmalloc(how) } || { malloc(how) } || { calloc(how) } ==> got
         | { 0 } ==> true=stop, false=got
         | { 1 } ==> true=got, false=stop
         | { x } ==> true=start, false=start
         | { y = x } || { other(how) } ==> start;

  v.untested: { v } || { v = x } || { __builtin_expect(!!v, x) } || { 0 != v } || { (void *)0 != v }
               ==> true=v.stop, false=v.null
         | { __builtin_expect(!!!v, x) } || { 0 == v } || { (void *)0 == v }
               ==> true=v.null, false=v.stop
         | { *v } || { v[x] }
               ==> v.stop, { err("%s is used before it is known that the allocation succeeded", mc_identifier(v)); };
  v.null:  { *v } || { v[x] } ==> v.stop, { err("%s is null here", mc_identifier(v)); };
}
