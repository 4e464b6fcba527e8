// A handler of a signal calls a function that isn't safe there. Handlers are the functions that the first two rules name: write yours
// there. What the second one names isn't followed where it is called, so a handler that the program calls too is looked at by itself.
sm signal_handlers {
  decl any_fn_call call;
  decl any_arguments how;
  decl any_expr x;

  start:  ${ mc_in_function("handler") } && { x } || ${ mc_in_function("sig_handler") } && { x }
           || ${ mc_in_function("sighandler") } && { x } || ${ mc_in_function("signal_handler") } && { x }
           || ${ mc_in_function("handle_signal") } && { x } || ${ mc_in_function("on_signal") } && { x }
           || ${ mc_in_function("onsig") } && { x } || ${ mc_in_function("onintr") } && { x }
           || ${ mc_in_function("catch_signal") } && { x } || ${ mc_in_function("sigint_handler") } && { x }
           || ${ mc_in_function("sigterm_handler") } && { x } || ${ mc_in_function("sighup_handler") } && { x }
           || ${ mc_in_function("sigchld_handler") } && { x } || ${ mc_in_function("sigalrm_handler") } && { x }
           || ${ mc_in_function("sigsegv_handler") } && { x } || ${ mc_in_function("alarm_handler") } && { x }
           || ${ mc_in_function("handle_sigint") } && { x } || ${ mc_in_function("handle_sigterm") } && { x }
           || ${ mc_in_function("handle_sighup") } && { x } || ${ mc_in_function("handle_sigchld") } && { x }
           || ${ mc_in_function("handle_alarm") } && { x } || ${ mc_in_function("handle_chld") } && { x }
           || ${ mc_in_function("handle_term") } && { x } || ${ mc_in_function("handle_hup") } && { x }
           || ${ mc_in_function("handle_usr1") } && { x }
              ==> inside
        | { handler(how) } || { sig_handler(how) } || { sighandler(how) } || { signal_handler(how) } || { handle_signal(how) }
           || { on_signal(how) } || { onsig(how) } || { onintr(how) } || { catch_signal(how) } || { sigint_handler(how) }
           || { sigterm_handler(how) } || { sighup_handler(how) } || { sigchld_handler(how) } || { sigalrm_handler(how) }
           || { sigsegv_handler(how) } || { alarm_handler(how) } || { handle_sigint(how) } || { handle_sigterm(how) }
           || { handle_sighup(how) } || { handle_sigchld(how) } || { handle_alarm(how) } || { handle_chld(how) }
           || { handle_term(how) } || { handle_hup(how) } || { handle_usr1(how) } ==> start
        | { 0 } ==> true=stop, false=start
        | { 1 } ==> true=start, false=stop;

  inside: { call(how) } && ${ mc_name_is(call, "printf") } || { call(how) } && ${ mc_name_is(call, "fprintf") }
           || { call(how) } && ${ mc_name_is(call, "vfprintf") } || { call(how) } && ${ mc_name_is(call, "puts") }
           || { call(how) } && ${ mc_name_is(call, "fputs") } || { call(how) } && ${ mc_name_is(call, "putchar") }
           || { call(how) } && ${ mc_name_is(call, "fflush") } || { call(how) } && ${ mc_name_is(call, "fopen") }
           || { call(how) } && ${ mc_name_is(call, "fclose") } || { call(how) } && ${ mc_name_is(call, "sprintf") }
           || { call(how) } && ${ mc_name_is(call, "snprintf") } || { call(how) } && ${ mc_name_is(call, "malloc") }
           || { call(how) } && ${ mc_name_is(call, "calloc") } || { call(how) } && ${ mc_name_is(call, "realloc") }
           || { call(how) } && ${ mc_name_is(call, "free") } || { call(how) } && ${ mc_name_is(call, "strdup") }
           || { call(how) } && ${ mc_name_is(call, "syslog") } || { call(how) } && ${ mc_name_is(call, "exit") }
           || { call(how) } && ${ mc_name_is(call, "localtime") } || { call(how) } && ${ mc_name_is(call, "ctime") }
           || { call(how) } && ${ mc_name_is(call, "strftime") } || { call(how) } && ${ mc_name_is(call, "pthread_mutex_lock") }
           || { call(how) } && ${ mc_name_is(call, "getpwnam") }
              ==> inside, { err("%s isn't safe in a handler of a signal", mc_identifier(call)); }
        | { _exit(how) } || { abort() } || { longjmp(how) } || { siglongjmp(how) } ==> stop
        | { x } && ${ mc_in_function("main") } ==> start
        | { 0 } ==> true=stop, false=inside
        | { 1 } ==> true=inside, false=stop;
}
