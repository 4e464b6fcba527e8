// A directory that a function opened is tested before it is read, and closed on each path, once. Run it with --depth 0.
sm directories {
  state decl any_pointer d;
  decl any_arguments how;
  decl any_expr x;

  start:    { d = opendir(x) } && ${ mc_is_local(d) } || { d = fdopendir(x) } && ${ mc_is_local(d) } ==> d.fresh
          | { exit(how) } || { _exit(how) } || { abort() } || { longjmp(how) } || { siglongjmp(how) }
                || { err(how) } || { errx(how) } || { pthread_exit(how) } ==> stop
          | { 0 } ==> true=stop, false=start
          | { 1 } ==> true=start, false=stop;

  d.fresh:  { d } || { d = x } || { (void *)0 != d } || { 0 != d } ==> true=d.open, false=d.stop
          | { (void *)0 == d } || { 0 == d } ==> true=d.stop, false=d.open
          | { readdir(d) } || { readdir64(d) } || { closedir(d) } || { dirfd(d) } || { rewinddir(d) }
                ==> d.stop, { err("%s is used before it is known that it was opened", mc_identifier(d)); }
          | { x = d } || { d = x } ==> d.stop;

  // A mention is the last thing that is seen of a directory that is returned or handed on; each use that only uses it leads back.
  d.open:   { d } ==> d.said
          | { d = x } ==> d.stop
          | $end_of_path$ && ${ mc_in_function("main") } ==> d.stop
          | $end_of_path$ ==> d.stop, { err("%s isn't closed on this path", mc_identifier(d)); };

  d.said:   { d } || { d != x } || { x != d } ==> true=d.open, false=d.stop
          | { d == x } || { x == d } ==> true=d.stop, false=d.open
          | { closedir(d) } ==> d.closed
          | { x = d } || { d = x } ==> d.stop
          | { readdir(d) } || { readdir64(d) } || { readdir_r(d, how) } || { dirfd(d) } || { rewinddir(d) } || { telldir(d) }
                || { seekdir(d, x) }
                ==> d.open
          | $end_of_path$ ==> d.stop;

  d.closed: { closedir(d) } ==> d.stop, { err("%s is closed twice", mc_identifier(d)); }
          | { readdir(d) } || { readdir64(d) } || { dirfd(d) } || { rewinddir(d) }
                ==> d.stop, { err("%s is used after it was closed", mc_identifier(d)); };
}
