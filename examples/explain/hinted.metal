sm ports {
  state decl any_pointer p;

  start:    { port_claim(p) } ==> p.claimed;
  p.claimd: { port_release(p) } ==> p.stop
          | $end_of_path$ ==> p.stop, { err("%s is still claimed", mc_identifier(p)); };
}
