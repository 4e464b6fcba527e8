sm port_result {
  decl any_arguments how;

  start:   { ret = port_claim(how) } ==> asked
         | { port_release(how) } ==> start, { err("released and not claimed"); };
  asked:   { ret } ==> true=start, false=claimed;
  claimed: { port_release(how) } ==> start
         | $end_of_path$ ==> start, { err("still claimed"); };
}
