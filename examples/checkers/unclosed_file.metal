// A file that a function opened is open at its end, or closed twice. Run it with --depth 0.
sm unclosed_file {
  state decl any_pointer f;
  decl any_fn_call other;
  decl any_arguments how;
  decl any_expr name, mode, x, y, z;

  start:    { f = fopen(name, mode) } && ${ mc_is_local(f) } ==> f.open
          | { exit(how) } || { _exit(how) } || { abort() } || { longjmp(how) } ==> stop
          | { 0 } ==> true=stop, false=start
          | { 1 } ==> true=start, false=stop;

  // A mention is all that is seen of a file that is returned: `said` is behind one, and every other use leads back from there.
  f.open:   { f = x } ==> true=f.open, false=f.stop
          | { f = x } ==> f.stop
          | { f } ==> f.said
          | $end_of_path$ ==> f.stop, { err("%s is not closed", mc_identifier(f)); };
  f.said:   { f } || { f != x } || { x != f } ==> true=f.open, false=f.stop
          | { f == x } || { x == f } ==> true=f.stop, false=f.open
          | { fclose(f) } ==> f.closed
          | { x = f } || { f = x } ==> f.stop
          | { *f } || { f[x] } || { other(f, how) } || { other(x, f, how) } || { other(x, y, f, how) } || { other(x, y, z, f, how) } ==> f.open
          | $end_of_path$ ==> f.stop;
  f.closed: { fclose(f) } ==> f.stop, { err("%s is closed twice", mc_identifier(f)); };
}
