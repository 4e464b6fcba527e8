// Interrupts are disabled and not enabled again.
sm interrupts {
  decl any_arguments how;

  start: { local_irq_disable() } || { __disable_irq() } || { cli() } ==> off
       | { 0 } ==> true=stop, false=start
       | { 1 } ==> true=start, false=stop;
  off:   { local_irq_enable() } || { __enable_irq() } || { sti() } ==> start
       | { local_irq_disable() } || { __disable_irq() } || { cli() } ==> off, { err("interrupts are disabled twice"); }
       | { delay_ms(how) } || { wait_for_event(how) } ==> off, { err("waiting with interrupts disabled"); }
       | { 0 } ==> true=stop, false=off
       | { 1 } ==> true=off, false=stop
       | $end_of_path$ ==> start, { err("interrupts are left disabled"); };
}
