sm format {
  decl any_fn_call print;
  decl any_arguments rest;
  decl any_expr text;

  start: { printf(text, rest) } && ${ !mc_is_const(text) }
             ==> start, { err("the format %s is no constant (%s)", mc_identifier(text), mc_identifier(rest)); }
       | { print("", rest) } && ${ !mc_name_is(print, "log_flush") }
             ==> start, { err("%s has an empty format", mc_identifier(print)); };
}
