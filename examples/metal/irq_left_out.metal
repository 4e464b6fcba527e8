sm irq_itself {
  start: { pause() } ==> start
       | { cli() } ==> off;
  off: { sti() } ==> start
     | $end_of_path$ ==> start, { err("interrupts left off"); };
}
