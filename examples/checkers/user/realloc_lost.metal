// `p = realloc(p, n)` loses what p had where there is no memory. It is told on the path on which a test has shown that, if that goes on.
sm realloc_lost {
  state decl any_pointer p;
  decl any_arguments how;
  decl any_expr n, x;

  start:   { p = realloc(p, n) } || { p = (char *)realloc(p, n) } || { p = (unsigned char *)realloc(p, n) } || { p = (void *)realloc(p, n) }
               || { p = (int *)realloc(p, n) } || { p = (char **)realloc(p, n) } || { p = (char *)realloc((void *)p, n) }
               || { p = (char *)realloc((char *)p, n) } ==> p.again
         | { x = p } || { p = x } && ${ mc_is_global(x) } || { p = x } && ${ mc_is_param(x) } || { p = x } && ${ mc_is_local(x) } ==> p.kept
         | { exit(how) } || { _exit(how) } || { abort() } || { longjmp(how) } || { siglongjmp(how) }
               || { err(how) } || { errx(how) } || { pthread_exit(how) } ==> stop
         | { 0 } ==> true=stop, false=start
         | { 1 } ==> true=start, false=stop;

  // What has a second name isn't lost: it may be freed by that.
  p.kept:  { p = realloc(x, n) } ==> p.stop;
  p.again: { p } || { p = x } || { (void *)0 != p } || { 0 != p } ==> true=p.stop, false=p.lost
         | { (void *)0 == p } || { 0 == p } ==> true=p.lost, false=p.stop
         | { *p } || { p[x] } ==> p.stop, { err("%s is used before it is known that realloc succeeded", mc_identifier(p)); };
  // Where p is returned as it is, the caller is told, and has what it handed in.
  p.lost:  { p } ==> p.stop
         | $end_of_path$ ==> p.stop, { err("what %s had is lost: realloc failed on this path", mc_identifier(p)); };
}
