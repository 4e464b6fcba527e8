// A clock is prepared, enabled, disabled and unprepared, in this order.
sm clock_sequence {
  state decl any_pointer c;

  start:      { clk_prepare(c) } ==> c.prepared
            | { clk_prepare_enable(c) } ==> c.enabled
            | { clk_enable(c) } && ${ mc_is_local(c) } ==> c.stop, { err("%s is enabled and was not prepared", mc_identifier(c)); }
            | { 0 } ==> true=stop, false=start
            | { 1 } ==> true=start, false=stop;

  c.prepared: { clk_prepare(c) } ==> true=c.stop, false=c.prepared
            | { clk_enable(c) } ==> c.enabled
            | { clk_unprepare(c) } ==> c.stop
            | { clk_disable(c) } ==> c.stop, { err("%s is disabled and was not enabled", mc_identifier(c)); };
  c.enabled:  { clk_enable(c) } ==> true=c.prepared, false=c.enabled
            | { clk_prepare_enable(c) } ==> true=c.stop, false=c.enabled
            | { clk_disable(c) } ==> c.prepared
            | { clk_disable_unprepare(c) } ==> c.stop
            | { clk_unprepare(c) } ==> c.stop, { err("%s is unprepared while it is enabled", mc_identifier(c)); };
}
