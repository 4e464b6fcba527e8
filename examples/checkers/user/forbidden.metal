// Functions that no program should call: what they are given can't be made safe, or there is a safe one in their place.
sm forbidden {
  decl any_fn_call call;
  decl any_arguments how;

  start: { call(how) } && ${ mc_name_is(call, "gets") } ==> start, { err("%s writes past any buffer: use fgets", mc_identifier(call)); }
       | { call(how) } && ${ mc_name_is(call, "mktemp") } || { call(how) } && ${ mc_name_is(call, "tmpnam") }
             || { call(how) } && ${ mc_name_is(call, "tempnam") }
             ==> start, { err("%s gives a name that another may take first: use mkstemp", mc_identifier(call)); }
       | { call(how) } && ${ mc_name_is(call, "strcpy") } || { call(how) } && ${ mc_name_is(call, "strcat") }
             || { call(how) } && ${ mc_name_is(call, "sprintf") } || { call(how) } && ${ mc_name_is(call, "vsprintf") }
             ==> start, { err("%s doesn't know how much room there is: use one that is told", mc_identifier(call)); }
       | { call(how) } && ${ mc_name_is(call, "getwd") } || { call(how) } && ${ mc_name_is(call, "getpw") }
             || { call(how) } && ${ mc_name_is(call, "cuserid") } || { call(how) } && ${ mc_name_is(call, "bzero") }
             || { call(how) } && ${ mc_name_is(call, "bcopy") } || { call(how) } && ${ mc_name_is(call, "usleep") }
             ==> start, { err("%s is gone from POSIX", mc_identifier(call)); };
}
