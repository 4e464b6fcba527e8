// A lock is taken twice, or released by the wrong function. The locks are those of Linux, as its macros leave them behind the preprocessor.
// That it is released: held_locks.metal.
sm locks {
  state decl any_pointer l;
  decl any_pointer p;
  decl any_fn_call call;
  decl any_arguments how;
  decl any_expr flags, x, y;

  start:   { spin_trylock(l) } || { spin_trylock_bh(l) } || { _raw_spin_trylock(spinlock_check(l)) } ==> true=l.spin, false=l.stop
         | { mutex_trylock(l) } ==> true=l.mutex, false=l.stop
         | { mutex_lock_interruptible(l) } || { mutex_lock_killable(l) } ==> true=l.stop, false=l.mutex
         | { down_read_trylock(l) } ==> true=l.read, false=l.stop
         | { down_write_trylock(l) } ==> true=l.write, false=l.stop
         | { down_read_killable(l) } || { down_read_interruptible(l) } ==> true=l.stop, false=l.read
         | { down_write_killable(l) } ==> true=l.stop, false=l.write;
  // pte_offset_map_lock(.., &ptl) is *(&ptl) = __ptl, and then spin_lock(__ptl)
  start:   { spin_lock(l) } && ${ !mc_name_is(l, "__ptl") } || { l = __ptl } || { spin_lock_irq(l) } || { spin_lock_bh(l) }
               || { flags = _raw_spin_lock_irqsave(spinlock_check(l)) } ==> l.spin
         | { mutex_lock(l) } ==> l.mutex
         | { _raw_read_lock(l) } || { _raw_read_lock_irq(l) } || { _raw_read_lock_bh(l) } || { flags = _raw_read_lock_irqsave(l) }
               || { down_read(l) } ==> l.read
         | { _raw_write_lock(l) } || { _raw_write_lock_irq(l) } || { _raw_write_lock_bh(l) } || { flags = _raw_write_lock_irqsave(l) }
               || { down_write(l) } ==> l.write
         | { 0 } ==> true=stop, false=start
         | { 1 } ==> true=start, false=stop
         | { p } || { x < y } || { x > y } || { x <= y } || { x >= y } || { x == y } || { x != y } || { call(how) } || { x = y }
               ==> true=start, false=start
         | { x } ==> true=flag, false=start;

  // What is taken first of all where a flag is set is released where that is set, and no condition is known.
  flag:    { spin_lock(l) } || { spin_lock_irq(l) } || { spin_lock_bh(l) } || { flags = _raw_spin_lock_irqsave(spinlock_check(l)) }
               || { mutex_lock(l) } || { _raw_read_lock(l) } || { _raw_read_lock_irq(l) } || { _raw_read_lock_bh(l) }
               || { flags = _raw_read_lock_irqsave(l) } || { down_read(l) } || { _raw_write_lock(l) } || { _raw_write_lock_irq(l) }
               || { _raw_write_lock_bh(l) } || { flags = _raw_write_lock_irqsave(l) } || { down_write(l) } ==> l.lent
         | { 0 } ==> true=stop, false=flag
         | { 1 } ==> true=flag, false=stop
         | { call(how) } || { x = y } ==> start
         | { x } ==> true=start, false=start;
  l.lent:  { spin_unlock(l) } || { spin_unlock_irq(l) } || { spin_unlock_bh(l) } || { spin_unlock_irqrestore(l, flags) }
               || { mutex_unlock(l) } || { up_read(l) } || { up_write(l) } || { _raw_read_unlock(l) } || { _raw_read_unlock_irq(l) }
               || { _raw_read_unlock_bh(l) } || { _raw_read_unlock_irqrestore(l, flags) } || { _raw_write_unlock(l) }
               || { _raw_write_unlock_irq(l) } || { _raw_write_unlock_bh(l) } || { _raw_write_unlock_irqrestore(l, flags) } ==> l.stop;

  l.spin:  { spin_unlock(l) } || { spin_unlock_irq(l) } || { spin_unlock_bh(l) } || { spin_unlock_irqrestore(l, flags) } ==> l.stop
         | { spin_lock(l) } || { spin_lock_irq(l) } || { spin_lock_bh(l) } || { flags = _raw_spin_lock_irqsave(spinlock_check(l)) }
               ==> l.spin, { err("%s is taken twice", mc_identifier(l)); }
         | { mutex_unlock(l) } ==> l.stop, { err("%s is a spin lock and is released as a mutex", mc_identifier(l)); };
  l.mutex: { mutex_unlock(l) } ==> l.stop
         | { mutex_lock(l) } ==> l.mutex, { err("%s is taken twice", mc_identifier(l)); }
         | { spin_unlock(l) } ==> l.stop, { err("%s is a mutex and is released as a spin lock", mc_identifier(l)); };
  l.read:  { _raw_read_unlock(l) } || { _raw_read_unlock_irq(l) } || { _raw_read_unlock_bh(l) } || { _raw_read_unlock_irqrestore(l, flags) }
               || { up_read(l) } ==> l.stop
         | { _raw_write_lock(l) } || { _raw_write_lock_irq(l) } || { _raw_write_lock_bh(l) } || { flags = _raw_write_lock_irqsave(l) }
               || { down_write(l) } ==> l.write, { err("%s is taken for writing while it is held for reading", mc_identifier(l)); }
         | { _raw_write_unlock(l) } || { up_write(l) }
               ==> l.stop, { err("%s is held for reading and released as by a writer", mc_identifier(l)); };
  l.write: { _raw_write_unlock(l) } || { _raw_write_unlock_irq(l) } || { _raw_write_unlock_bh(l) }
               || { _raw_write_unlock_irqrestore(l, flags) } || { up_write(l) } ==> l.stop
         | { downgrade_write(l) } ==> l.read
         | { _raw_read_lock(l) } || { _raw_write_lock(l) } || { down_read(l) } || { down_write(l) }
               ==> l.write, { err("%s is taken twice", mc_identifier(l)); }
         | { _raw_read_unlock(l) } || { up_read(l) }
               ==> l.stop, { err("%s is held for writing and released as by a reader", mc_identifier(l)); };
}
