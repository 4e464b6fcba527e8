// A descriptor that a function opened is closed on each path, once, and isn't used behind that. Run it with --depth 0.
sm descriptors {
  state decl int f;
  decl any_arguments how;
  decl any_expr x, y, z, w;

  start:    { f = open(how) } && ${ mc_is_local(f) } || { f = open64(how) } && ${ mc_is_local(f) }
                || { f = openat(how) } && ${ mc_is_local(f) } || { f = creat(how) } && ${ mc_is_local(f) }
                || { f = socket(how) } && ${ mc_is_local(f) } || { f = accept(how) } && ${ mc_is_local(f) }
                || { f = dup(x) } && ${ mc_is_local(f) } || { f = mkstemp(x) } && ${ mc_is_local(f) }
                || { f = epoll_create(x) } && ${ mc_is_local(f) } || { f = inotify_init() } && ${ mc_is_local(f) } ==> f.open
          | { exit(how) } || { _exit(how) } || { abort() } || { longjmp(how) } || { siglongjmp(how) }
                || { err(how) } || { errx(how) } || { pthread_exit(how) } ==> stop
          | { 0 } ==> true=stop, false=start
          | { 1 } ==> true=start, false=stop;

  // A mention is the last thing that is seen of a descriptor that is returned or handed on; each use that only uses it leads back.
  f.open:   { (f = x) < 0 } || { (f = x) == -1 } || { (f = x) <= -1 } || { (f = x) <= 0 } ==> true=f.stop, false=f.open
          | { (f = x) >= 0 } || { (f = x) != -1 } || { (f = x) > -1 } || { (f = x) > 0 } ==> true=f.open, false=f.stop
          | { f = x } ==> f.stop
          | { f } ==> f.said
          | $end_of_path$ && ${ mc_in_function("main") } ==> f.stop
          | $end_of_path$ ==> f.stop, { err("%s isn't closed on this path", mc_identifier(f)); };

  f.said:   { f < 0 } || { f <= 0 } || { f == -1 } || { f <= -1 } || { -1 == f } || { 0 > f } || { f == x } || { x == f }
                ==> true=f.stop, false=f.open
          | { f } || { f >= 0 } || { f > 0 } || { f != -1 } || { f > -1 } || { -1 != f } || { 0 <= f } || { f > 2 } || { f != x }
                || { x != f }
                ==> true=f.open, false=f.stop
          | { f < x } || { f > x } || { x < f } || { x > f } || { f <= x } || { f >= x } ==> true=f.open, false=f.open
          | { close(f) } ==> f.closed
          | { x = f } || { f = x } ==> f.stop
          | { read(f, how) } || { write(f, how) } || { pread(f, how) } || { pwrite(f, how) } || { readv(f, how) } || { writev(f, how) }
                || { lseek(f, how) } || { lseek64(f, how) } || { fstat(f, x) } || { fstat64(f, x) } || { fchmod(f, x) }
                || { fchown(f, how) }
                || { ftruncate(f, x) } || { fsync(f) } || { fdatasync(f) } || { flock(f, x) } || { lockf(f, how) } || { fchdir(f) }
                || { fcntl(f, how) } || { fcntl64(f, how) } || { ioctl(f, how) } || { isatty(f) } || { tcgetattr(f, x) }
                || { tcsetattr(f, how) }
                || { bind(f, how) } || { listen(f, x) } || { connect(f, how) } || { accept(f, how) } || { shutdown(f, x) }
                || { send(f, how) } || { sendto(f, how) } || { sendmsg(f, how) } || { recv(f, how) } || { recvfrom(f, how) }
                || { recvmsg(f, how) }
                || { setsockopt(f, how) } || { getsockopt(f, how) } || { getsockname(f, how) } || { getpeername(f, how) }
                || { dup(f) } || { dup2(f, x) } || { dup2(x, f) } || { mmap(x, y, z, w, f, how) } ==> f.open
          | $end_of_path$ ==> f.stop;

  f.closed: { close(f) } ==> f.stop, { err("%s is closed twice", mc_identifier(f)); }
          | { read(f, how) } || { write(f, how) } || { lseek(f, how) } || { fstat(f, x) } || { fcntl(f, how) } || { ioctl(f, how) }
                || { send(f, how) } || { recv(f, how) } || { dup(f) } || { dup2(f, x) }
                ==> f.stop, { err("%s is used after it was closed", mc_identifier(f)); };
}
