sm forced {
  decl any_expr x;

  start: { cleanup((unsigned char)1) } ==> start, { err("cleanup is forced"); }
       | { signal(2, x) } ==> start, { err("%s handles SIGINT", mc_identifier(x)); };
}
