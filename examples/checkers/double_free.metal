// A pointer is freed twice, or by the wrong function. An allocation may stand behind a cast: a global state waits for its assignment.
sm double_free {
  state decl any_pointer v;
  decl any_fn_call other;
  decl any_arguments how;
  decl any_expr x, y;

  start:    { kmalloc(how) } || { kzalloc(how) } || { kcalloc(how) } ==> got_kmem
          | { vmalloc(how) } || { vzalloc(how) } ==> got_vmem
          | { kfree(v) } || { vfree(v) } || { kvfree(v) } || { free(v) } ==> v.freed
          | { exit(how) } || { _exit(how) } || { abort() } || { longjmp(how) } || { panic(how) } ==> stop
          | { 0 } ==> true=stop, false=start
          | { 1 } ==> true=start, false=stop;
  got_kmem: { v = x } ==> v.kmem
          | { kmalloc(how) } || { kzalloc(how) } || { kcalloc(how) } ==> got_kmem
          | { vmalloc(how) } || { vzalloc(how) } ==> got_vmem
          | { kfree(v) } || { vfree(v) } || { kvfree(v) } || { free(v) } ==> v.freed
          | { 0 } ==> true=stop, false=got_kmem
          | { 1 } ==> true=got_kmem, false=stop
          | { x } ==> true=start, false=start
          | { y = x } || { other(how) } ==> start;
  got_vmem: { v = x } ==> v.vmem
          | { kmalloc(how) } || { kzalloc(how) } || { kcalloc(how) } ==> got_kmem
          | { vmalloc(how) } || { vzalloc(how) } ==> got_vmem
          | { kfree(v) } || { vfree(v) } || { kvfree(v) } || { free(v) } ==> v.freed
          | { 0 } ==> true=stop, false=got_vmem
          | { 1 } ==> true=got_vmem, false=stop
          | { x } ==> true=start, false=start
          | { y = x } || { other(how) } ==> start;

  v.kmem:   { kfree(v) } || { kvfree(v) } ==> v.freed
          | { vfree(v) } ==> v.freed, { err("%s comes from kmalloc and is freed by vfree", mc_identifier(v)); };
  v.vmem:   { vfree(v) } || { kvfree(v) } ==> v.freed
          | { kfree(v) } ==> v.freed, { err("%s comes from vmalloc and is freed by kfree", mc_identifier(v)); };
  v.freed:  { kfree(v) } || { vfree(v) } || { kvfree(v) } || { free(v) }
                ==> v.stop, { err("%s is freed twice", mc_identifier(v)); };
}
