// A lock is taken twice, released by the wrong function, or still held at the end.
sm lock_pairs {
  state decl any_pointer l;
  decl any_expr flags;

  start:   { spin_trylock(l) } ==> true=l.spin, false=l.stop
         | { mutex_trylock(l) } ==> true=l.mutex, false=l.stop
         | { mutex_lock_interruptible(l) } ==> true=l.stop, false=l.mutex;
  start:   { spin_lock(l) } || { spin_lock_irq(l) } || { spin_lock_irqsave(l, flags) } ==> l.spin
         | { mutex_lock(l) } ==> l.mutex
         | { 0 } ==> true=stop, false=start
         | { 1 } ==> true=start, false=stop;

  l.spin:  { spin_unlock(l) } || { spin_unlock_irq(l) } || { spin_unlock_irqrestore(l, flags) } ==> l.stop
         | { spin_lock(l) } || { spin_lock_irq(l) } || { spin_lock_irqsave(l, flags) }
               ==> l.spin, { err("%s is taken twice", mc_identifier(l)); }
         | { mutex_unlock(l) } ==> l.stop, { err("%s is a spin lock and is released as a mutex", mc_identifier(l)); }
         | $end_of_path$ ==> l.stop, { err("%s is still held at the end", mc_identifier(l)); };
  l.mutex: { mutex_unlock(l) } ==> l.stop
         | { mutex_lock(l) } ==> l.mutex, { err("%s is taken twice", mc_identifier(l)); }
         | { spin_unlock(l) } ==> l.stop, { err("%s is a mutex and is released as a spin lock", mc_identifier(l)); }
         | $end_of_path$ ==> l.stop, { err("%s is still held at the end", mc_identifier(l)); };
}
