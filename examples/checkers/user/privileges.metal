// The result of a function that gives up rights is looked at. What is said stands at the next name that is read without that.
sm privileges {
  decl any_arguments how;
  decl any_expr x, y, z;

  start: { setuid(x) } || { setgid(x) } || { seteuid(x) } || { setegid(x) } || { setreuid(how) } || { setregid(how) }
             || { setresuid(how) } || { setresgid(how) } || { setgroups(how) } || { initgroups(how) } || { chroot(x) } ==> asked
       | { exit(how) } || { _exit(how) } || { abort() } ==> stop
       | { 0 } ==> true=stop, false=start
       | { 1 } ==> true=start, false=stop;

  // what the call stands in comes behind it, and only constants come between; every other name is read by another statement
  asked: { 0 } ==> true=stop, false=asked
       | { 1 } ==> true=asked, false=stop
       | { x } ==> true=start, false=start
       | { x == y } || { x != y } || { x < y } || { x > y } || { x <= y } || { x >= y } || { x = y } || { x | y } || { x |= y } || { x + y }
             || { (void)x } || { x ? y : z } || { !x } ==> start
       | { -x } || { x } && ${ mc_is_const(x) } ==> asked
       | { x } ==> start, { err("rights were given up before this, and nobody looked whether that succeeded"); };
}
