// What mmap gave is compared with MAP_FAILED and not with null, and isn't used or unmapped once more behind munmap.
sm memory_maps {
  state decl any_pointer p;
  decl any_arguments how;
  decl any_expr x, y;

  start:    { p = mmap(how) } || { p = mmap64(how) } || { p = mremap(how) } ==> p.fresh
          | { munmap(p, x) } ==> p.gone
          | { exit(how) } || { _exit(how) } || { abort() } || { longjmp(how) } || { siglongjmp(how) }
                || { err(how) } || { errx(how) } || { pthread_exit(how) } ==> stop
          | { 0 } ==> true=stop, false=start
          | { 1 } ==> true=start, false=stop;

  // MAP_FAILED is ((void *)-1) behind the preprocessor. A message can't stand at a test, so it comes with the first use behind it.
  p.fresh:  { p == (void *)-1 } || { (p = x) == (void *)-1 } || { (void *)-1 == p } || { p == (char *)-1 } || { (p = x) == (char *)-1 }
                ==> true=p.failed, false=p.stop
          | { p != (void *)-1 } || { (p = x) != (void *)-1 } || { (void *)-1 != p } || { p != (char *)-1 } || { (p = x) != (char *)-1 }
                ==> true=p.stop, false=p.failed
          | { p } || { p = x } ==> true=p.null_test, false=p.null_test
          | { *p } || { p[x] } || { memcpy(p, how) } || { memset(p, how) } || { memcpy(x, p, y) }
                ==> p.stop, { err("%s is used before it is known that mmap succeeded", mc_identifier(p)); }
          | { x = p } || { p = x } ==> p.stop;
  p.failed: { *p } || { p[x] } || { memcpy(p, how) } || { memset(p, how) }
                ==> p.stop, { err("%s is MAP_FAILED here", mc_identifier(p)); };
  p.null_test: { p == (void *)-1 } || { p != (void *)-1 } || { p } ==> true=p.stop, false=p.stop
          | { *p } || { p[x] } || { memcpy(p, how) } || { memset(p, how) } || { memcpy(x, p, y) } || { munmap(p, x) } || { x = p }
                ==> p.stop, { err("%s comes from mmap and was compared with null, not with MAP_FAILED", mc_identifier(p)); };

  p.gone:   { munmap(p, x) } ==> p.stop, { err("%s is unmapped twice", mc_identifier(p)); }
          | { *p } || { p[x] } ==> p.stop, { err("%s is used after it was unmapped", mc_identifier(p)); };
}
