sm see {
 decl any_expr x;
 start: { see(x) } ==> start, { err("saw %s", mc_identifier(x)); };
}
