sm irq {
 start: { cli() } ==> off;
 off: { sti() } ==> start
    | { sleep() } ==> off, { err("sleeping with interrupts off"); }
    | $end_of_path$ ==> start, { err("interrupts left off"); };
}
