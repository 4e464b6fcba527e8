sm irq {
  start: { cli() } ==> off;
  off: { sti() } ==> start
     | { cli() } ==> off, { err("interrupts are off already"); }
     | $end_of_path$ ==> start, { err("interrupts left off"); };
}
