// A list of arguments that was begun is ended, and isn't read twice or behind its end. Run it with --depth 0.
sm variadic {
  state decl any_expr v;
  decl any_arguments how;
  decl any_expr x, y, z;

  start:   { __builtin_va_start(v, how) } || { __builtin_va_copy(v, x) } ==> v.begun
         | { exit(how) } || { _exit(how) } || { abort() } || { longjmp(how) } || { siglongjmp(how) }
               || { err(how) } || { errx(how) } || { pthread_exit(how) } ==> stop
         | { 0 } ==> true=stop, false=start
         | { 1 } ==> true=start, false=stop;

  v.begun: { __builtin_va_end(v) } ==> v.ended
         | { __builtin_va_start(v, how) } ==> v.begun, { err("%s is begun twice", mc_identifier(v)); }
         | { vprintf(x, v) } || { vfprintf(x, y, v) } || { vsprintf(x, y, v) } || { vsnprintf(x, y, z, v) } || { vsyslog(x, y, v) }
                ==> v.read
         | $end_of_path$ ==> v.stop, { err("%s is begun and not ended", mc_identifier(v)); };

  v.read:  { __builtin_va_end(v) } ==> v.ended
         | { vprintf(x, v) } || { vfprintf(x, y, v) } || { vsprintf(x, y, v) } || { vsnprintf(x, y, z, v) } || { vsyslog(x, y, v) }
               ==> v.stop, { err("%s was read already: copy it by va_copy before", mc_identifier(v)); }
         | $end_of_path$ ==> v.stop, { err("%s is begun and not ended", mc_identifier(v)); };

  v.ended: { __builtin_va_end(v) } ==> v.stop, { err("%s is ended twice", mc_identifier(v)); }
         | { vprintf(x, v) } || { vfprintf(x, y, v) } || { vsprintf(x, y, v) } || { vsnprintf(x, y, z, v) } || { vsyslog(x, y, v) }
               || { __builtin_va_arg(v, int) } || { __builtin_va_arg(v, char *) } || { __builtin_va_arg(v, void *) }
               ==> v.stop, { err("%s is read after it was ended", mc_identifier(v)); }
         | { __builtin_va_start(v, how) } || { __builtin_va_copy(v, x) } ==> v.begun;
}
