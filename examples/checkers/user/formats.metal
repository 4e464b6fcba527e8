// A local text that was not given a constant is printed as a format, with nothing behind it: a % in it is taken for a directive.
// Run it with --depth 0.
sm formats {
  state decl any_pointer text;
  decl any_arguments how;
  decl any_expr to, size, x, y, z;

  // What other functions and files hand in is theirs to know: most formats that are parameters or tables are only ever literals.
  start:      { text = gettext(x) } || { text = dcgettext(x, y, z) } || { text = ngettext(x, y, z) } || { text = dcngettext(how) } ==> text.known
            | { text = x ? y : z } && ${ mc_is_const(y) } && ${ mc_is_const(z) } ==> text.known
            | { text = x } && ${ mc_is_const(x) } || { text = x } && ${ mc_is_param(x) } || { text = x } && ${ mc_is_global(x) }
                  ==> text.known
            | { printf(text) } && ${ mc_is_local(text) } || { fprintf(to, text) } && ${ mc_is_local(text) }
                  || { sprintf(to, text) } && ${ mc_is_local(text) } || { snprintf(to, size, text) } && ${ mc_is_local(text) }
                  || { dprintf(to, text) } && ${ mc_is_local(text) } || { syslog(size, text) } && ${ mc_is_local(text) }
                  ==> text.stop, { err("%s is printed as a format: write \"%%s\" before it", mc_identifier(text)); }
            | { printf(x[y]) } && ${ mc_name_is(x, "argv") } || { fprintf(to, x[y]) } && ${ mc_name_is(x, "argv") }
                  || { syslog(size, x[y]) } && ${ mc_name_is(x, "argv") } || { printf(getenv(x)) } || { fprintf(to, getenv(x)) }
                  || { syslog(size, getenv(x)) } || { printf(strerror(x)) } || { fprintf(to, strerror(x)) } || { syslog(size, strerror(x)) }
                  ==> start, { err("a text from outside is printed as a format: write \"%%s\" before it"); }
            | { 0 } ==> true=stop, false=start
            | { 1 } ==> true=start, false=stop;

  // What is written into it makes a text of it again.
  text.known: { fgets(text, how) } || { read(x, text, y) } || { recv(x, text, how) } || { fread(text, how) } || { scanf(x, text) }
                  || { sprintf(text, how) } || { snprintf(text, how) } || { vsnprintf(text, how) } || { strcpy(text, x) }
                  || { strcat(text, x) } || { strncpy(text, x, y) } || { strncat(text, x, y) } || { memcpy(text, how) } ==> text.stop;
}
