// Behind chroot the working folder is still outside, until chdir("/"). Before chroot(".") stands the chdir.
sm chroot_without_chdir {
  decl any_arguments how;
  decl any_expr x, y;

  start:  { chroot(".") } ==> start
        | { chroot(x) } ==> inside
        | { 0 } ==> true=stop, false=start
        | { 1 } ==> true=start, false=stop;

  inside: { chroot(x) } || { chroot(x) < 0 } || { chroot(x) == -1 } ==> true=start, false=inside
        | { chroot(x) != -1 } || { chroot(x) >= 0 } ==> true=inside, false=start
        | { chdir(x) } || { fchdir(x) } || { xchdir(x) } ==> start
        | { exit(how) } || { _exit(how) } || { abort() } || { err(how) } || { errx(how) } ==> stop
        | { 0 } ==> true=stop, false=inside
        | { 1 } ==> true=inside, false=stop
        | { open(how) } || { fopen(how) } || { stat(x, y) } || { execv(how) } || { execve(how) } || { execvp(how) } || { execl(how) }
              || { execlp(how) } || { setuid(x) }
                ==> start, { err("chroot without chdir(\"/\") behind it: the working folder is outside"); }
        | $end_of_path$ ==> start, { err("chroot without chdir(\"/\") on this path: the working folder is outside"); };
}
