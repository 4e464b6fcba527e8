// What getc and its like give is kept in a char, which can't tell EOF from a byte.
sm char_eof {
  decl char c;
  decl unsigned char u;
  decl any_expr f;

  start: { c = getc(f) } || { c = fgetc(f) } || { c = getchar() } ==> start, { err("%s is a char and can't hold EOF", mc_identifier(c)); }
       | { u = getc(f) } || { u = fgetc(f) } || { u = getchar() } ==> start, { err("%s is a char and can't hold EOF", mc_identifier(u)); };
}
