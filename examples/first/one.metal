sm ports {
  state decl any_pointer p;

  start:     { port_claim(p) } ==> p.claimed;
  p.claimed: { port_claim(p) } ==> p.claimed, { err("%s is claimed twice", mc_identifier(p)); }
           | { port_release(p) } ==> p.stop;
}
