// A lock that the path took is forgotten by a return directly behind the first test since then, or by one that gives an error or null. The
// locks are those of Linux, as its macros leave them behind the preprocessor. Which one isn't asked: a path holds none, one or two.
sm held_locks {
  decl any_pointer p;
  decl any_fn_call call;
  decl any_arguments how;
  decl any_expr x, y, z;

  start: { spin_trylock(x) } || { spin_trylock_bh(x) } || { _raw_spin_trylock(x) } || { mutex_trylock(x) } || { down_read_trylock(x) }
             || { down_write_trylock(x) } || { mmap_read_trylock(x) } || { mmap_write_trylock(x) } ==> true=taken, false=start
       | { mutex_lock_interruptible(x) } || { mutex_lock_killable(x) } || { down_read_killable(x) } || { down_read_interruptible(x) }
             || { down_write_killable(x) } || { mmap_read_lock_killable(x) }
             || { mmap_write_lock_killable(x) } ==> true=start, false=taken
       | { z = mutex_lock_interruptible(x) } || { z = mutex_lock_killable(x) } || { z = down_read_killable(x) }
             || { z = down_read_interruptible(x) } || { z = down_write_killable(x) } || { z = mmap_read_lock_killable(x) }
             || { z = mmap_write_lock_killable(x) } ==> asked
       | { spin_unlock(x) } || { spin_unlock_irq(x) } || { spin_unlock_bh(x) } || { spin_unlock_irqrestore(x, y) }
             || { _raw_spin_unlock(x) } || { _raw_spin_unlock_irq(x) } || { _raw_spin_unlock_bh(x) }
             || { _raw_spin_unlock_irqrestore(x, y) } || { mutex_unlock(x) } || { up_read(x) } || { up_write(x) }
             || { _raw_read_unlock(x) } || { _raw_read_unlock_irq(x) } || { _raw_read_unlock_bh(x) }
             || { _raw_read_unlock_irqrestore(x, y) } || { _raw_write_unlock(x) } || { _raw_write_unlock_irq(x) }
             || { _raw_write_unlock_bh(x) } || { _raw_write_unlock_irqrestore(x, y) } ==> lent
       | { spin_lock(x) } || { spin_lock_irq(x) } || { spin_lock_bh(x) } || { _raw_spin_lock_irqsave(x) } || { _raw_spin_lock(x) }
             || { _raw_spin_lock_irq(x) } || { _raw_spin_lock_bh(x) } || { mutex_lock(x) } || { down_read(x) } || { down_write(x) }
             || { _raw_read_lock(x) } || { _raw_read_lock_irq(x) } || { _raw_read_lock_bh(x) } || { _raw_read_lock_irqsave(x) }
             || { _raw_write_lock(x) } || { _raw_write_lock_irq(x) } || { _raw_write_lock_bh(x) }
             || { _raw_write_lock_irqsave(x) } ==> taken
       | { 0 } ==> true=stop, false=start
       | { 1 } ==> true=start, false=stop
       | { __builtin_unreachable() } || { panic(how) } || { do_exit(how) } ==> stop
       | { p } || { x < y } || { x > y } || { x <= y } || { x >= y } || { x == y } || { x != y } || { call(how) }
             || { x = y } ==> true=start, false=start
       | { x } ==> true=flag, false=start;
  // The result of taking it is tested next.
  asked: { 0 } ==> true=stop, false=asked
       | { 1 } ==> true=asked, false=stop
       | { __builtin_unreachable() } || { panic(how) } || { do_exit(how) } ==> stop
       | { __builtin_expect(!!!x, y) } ==> true=taken, false=start
       | { __builtin_expect(!!x, y) } ==> true=start, false=taken
       | { call(how) } ==> true=asked, false=asked
       | { x } ==> true=start, false=taken;

  // What is taken first of all where a flag is set is released where that is set, and no condition is known.
  flag: { spin_unlock(x) } || { spin_unlock_irq(x) } || { spin_unlock_bh(x) } || { spin_unlock_irqrestore(x, y) }
             || { _raw_spin_unlock(x) } || { _raw_spin_unlock_irq(x) } || { _raw_spin_unlock_bh(x) }
             || { _raw_spin_unlock_irqrestore(x, y) } || { mutex_unlock(x) } || { up_read(x) } || { up_write(x) }
             || { _raw_read_unlock(x) } || { _raw_read_unlock_irq(x) } || { _raw_read_unlock_bh(x) }
             || { _raw_read_unlock_irqrestore(x, y) } || { _raw_write_unlock(x) } || { _raw_write_unlock_irq(x) }
             || { _raw_write_unlock_bh(x) } || { _raw_write_unlock_irqrestore(x, y) } ==> lent
       | { spin_lock(x) } || { spin_lock_irq(x) } || { spin_lock_bh(x) } || { _raw_spin_lock_irqsave(x) } || { _raw_spin_lock(x) }
             || { _raw_spin_lock_irq(x) } || { _raw_spin_lock_bh(x) } || { mutex_lock(x) } || { down_read(x) } || { down_write(x) }
             || { _raw_read_lock(x) } || { _raw_read_lock_irq(x) } || { _raw_read_lock_bh(x) } || { _raw_read_lock_irqsave(x) }
             || { _raw_write_lock(x) } || { _raw_write_lock_irq(x) } || { _raw_write_lock_bh(x) }
             || { _raw_write_lock_irqsave(x) } ==> spared
       | { call(how) } || { x = y } ==> start
       | { 0 } ==> true=stop, false=flag
       | { 1 } ==> true=flag, false=stop
       | { __builtin_unreachable() } || { panic(how) } || { do_exit(how) } ==> stop
       | { x } ==> true=start, false=start;
  spared: { spin_unlock(x) } || { spin_unlock_irq(x) } || { spin_unlock_bh(x) } || { spin_unlock_irqrestore(x, y) }
             || { _raw_spin_unlock(x) } || { _raw_spin_unlock_irq(x) } || { _raw_spin_unlock_bh(x) }
             || { _raw_spin_unlock_irqrestore(x, y) } || { mutex_unlock(x) } || { up_read(x) } || { up_write(x) }
             || { _raw_read_unlock(x) } || { _raw_read_unlock_irq(x) } || { _raw_read_unlock_bh(x) }
             || { _raw_read_unlock_irqrestore(x, y) } || { _raw_write_unlock(x) } || { _raw_write_unlock_irq(x) }
             || { _raw_write_unlock_bh(x) } || { _raw_write_unlock_irqrestore(x, y) } ==> start
       | { 0 } ==> true=stop, false=spared
       | { 1 } ==> true=spared, false=stop
       | { __builtin_unreachable() } || { panic(how) } || { do_exit(how) } ==> stop;
  // What the caller holds is released for a while.
  lent: { spin_lock(x) } || { spin_lock_irq(x) } || { spin_lock_bh(x) } || { _raw_spin_lock_irqsave(x) } || { _raw_spin_lock(x) }
             || { _raw_spin_lock_irq(x) } || { _raw_spin_lock_bh(x) } || { mutex_lock(x) } || { down_read(x) } || { down_write(x) }
             || { _raw_read_lock(x) } || { _raw_read_lock_irq(x) } || { _raw_read_lock_bh(x) } || { _raw_read_lock_irqsave(x) }
             || { _raw_write_lock(x) } || { _raw_write_lock_irq(x) } || { _raw_write_lock_bh(x) }
             || { _raw_write_lock_irqsave(x) } ==> start
       | { 0 } ==> true=stop, false=lent
       | { 1 } ==> true=lent, false=stop
       | { __builtin_unreachable() } || { panic(how) } || { do_exit(how) } ==> stop;

  // A function that goes on to its end with a lock hands it on; one that ends behind a test, or with an error, has forgotten it.
  taken: { spin_unlock(x) } || { spin_unlock_irq(x) } || { spin_unlock_bh(x) } || { spin_unlock_irqrestore(x, y) }
             || { _raw_spin_unlock(x) } || { _raw_spin_unlock_irq(x) } || { _raw_spin_unlock_bh(x) }
             || { _raw_spin_unlock_irqrestore(x, y) } || { mutex_unlock(x) } || { up_read(x) } || { up_write(x) }
             || { _raw_read_unlock(x) } || { _raw_read_unlock_irq(x) } || { _raw_read_unlock_bh(x) }
             || { _raw_read_unlock_irqrestore(x, y) } || { _raw_write_unlock(x) } || { _raw_write_unlock_irq(x) }
             || { _raw_write_unlock_bh(x) } || { _raw_write_unlock_irqrestore(x, y) } ==> start
       | { spin_lock(x) } || { spin_lock_irq(x) } || { spin_lock_bh(x) } || { _raw_spin_lock_irqsave(x) } || { _raw_spin_lock(x) }
             || { _raw_spin_lock_irq(x) } || { _raw_spin_lock_bh(x) } || { mutex_lock(x) } || { down_read(x) } || { down_write(x) }
             || { _raw_read_lock(x) } || { _raw_read_lock_irq(x) } || { _raw_read_lock_bh(x) } || { _raw_read_lock_irqsave(x) }
             || { _raw_write_lock(x) } || { _raw_write_lock_irq(x) } || { _raw_write_lock_bh(x) }
             || { _raw_write_lock_irqsave(x) } ==> two
       | { 0 } ==> true=stop, false=taken
       | { 1 } ==> true=taken, false=stop
       | { __builtin_unreachable() } || { panic(how) } || { do_exit(how) } ==> stop
       | { p = x } ==> got
       | { call(how) } ==> begun
       | { x } ==> true=tested, false=tested
       | { 0 } ==> done
       | { -x } && ${ mc_is_const(x) } || { ERR_PTR(x) } ==> failed;
  // What a function gives together with the lock, as pte_alloc_map_lock, is null where it hasn't taken it.
  got: { spin_unlock(x) } || { spin_unlock_irq(x) } || { spin_unlock_bh(x) } || { spin_unlock_irqrestore(x, y) }
             || { _raw_spin_unlock(x) } || { _raw_spin_unlock_irq(x) } || { _raw_spin_unlock_bh(x) }
             || { _raw_spin_unlock_irqrestore(x, y) } || { mutex_unlock(x) } || { up_read(x) } || { up_write(x) }
             || { _raw_read_unlock(x) } || { _raw_read_unlock_irq(x) } || { _raw_read_unlock_bh(x) }
             || { _raw_read_unlock_irqrestore(x, y) } || { _raw_write_unlock(x) } || { _raw_write_unlock_irq(x) }
             || { _raw_write_unlock_bh(x) } || { _raw_write_unlock_irqrestore(x, y) } ==> start
       | { call(how) } ==> begun
       | { 0 } ==> true=stop, false=got
       | { 1 } ==> true=got, false=stop
       | { __builtin_unreachable() } || { panic(how) } || { do_exit(how) } ==> stop
       | { p } ==> true=begun, false=start
       | { x } ==> true=tested, false=tested
       | { -x } && ${ mc_is_const(x) } || { ERR_PTR(x) } ==> failed;
  begun: { spin_trylock(x) } || { spin_trylock_bh(x) } || { _raw_spin_trylock(x) } || { mutex_trylock(x) } || { down_read_trylock(x) }
             || { down_write_trylock(x) } || { mmap_read_trylock(x) } || { mmap_write_trylock(x) } ==> true=two, false=tested
       | { mutex_lock_interruptible(x) } || { mutex_lock_killable(x) } || { down_read_killable(x) } || { down_read_interruptible(x) }
             || { down_write_killable(x) } || { mmap_read_lock_killable(x) } || { mmap_write_lock_killable(x) } ==> true=tested, false=two
       | { spin_unlock(x) } || { spin_unlock_irq(x) } || { spin_unlock_bh(x) } || { spin_unlock_irqrestore(x, y) }
             || { _raw_spin_unlock(x) } || { _raw_spin_unlock_irq(x) } || { _raw_spin_unlock_bh(x) }
             || { _raw_spin_unlock_irqrestore(x, y) } || { mutex_unlock(x) } || { up_read(x) } || { up_write(x) }
             || { _raw_read_unlock(x) } || { _raw_read_unlock_irq(x) } || { _raw_read_unlock_bh(x) }
             || { _raw_read_unlock_irqrestore(x, y) } || { _raw_write_unlock(x) } || { _raw_write_unlock_irq(x) }
             || { _raw_write_unlock_bh(x) } || { _raw_write_unlock_irqrestore(x, y) } ==> start
       | { spin_lock(x) } || { spin_lock_irq(x) } || { spin_lock_bh(x) } || { _raw_spin_lock_irqsave(x) } || { _raw_spin_lock(x) }
             || { _raw_spin_lock_irq(x) } || { _raw_spin_lock_bh(x) } || { mutex_lock(x) } || { down_read(x) } || { down_write(x) }
             || { _raw_read_lock(x) } || { _raw_read_lock_irq(x) } || { _raw_read_lock_bh(x) } || { _raw_read_lock_irqsave(x) }
             || { _raw_write_lock(x) } || { _raw_write_lock_irq(x) } || { _raw_write_lock_bh(x) }
             || { _raw_write_lock_irqsave(x) } ==> two
       | { 0 } ==> true=stop, false=begun
       | { 1 } ==> true=begun, false=stop
       | { __builtin_unreachable() } || { panic(how) } || { do_exit(how) } ==> stop
       | { x } ==> true=tested, false=tested
       | { 0 } ==> done
       | { -x } && ${ mc_is_const(x) } || { ERR_PTR(x) } ==> failed;
  tested: { spin_unlock(x) } || { spin_unlock_irq(x) } || { spin_unlock_bh(x) } || { spin_unlock_irqrestore(x, y) }
             || { _raw_spin_unlock(x) } || { _raw_spin_unlock_irq(x) } || { _raw_spin_unlock_bh(x) }
             || { _raw_spin_unlock_irqrestore(x, y) } || { mutex_unlock(x) } || { up_read(x) } || { up_write(x) }
             || { _raw_read_unlock(x) } || { _raw_read_unlock_irq(x) } || { _raw_read_unlock_bh(x) }
             || { _raw_read_unlock_irqrestore(x, y) } || { _raw_write_unlock(x) } || { _raw_write_unlock_irq(x) }
             || { _raw_write_unlock_bh(x) } || { _raw_write_unlock_irqrestore(x, y) } ==> start
       | { spin_lock(x) } || { spin_lock_irq(x) } || { spin_lock_bh(x) } || { _raw_spin_lock_irqsave(x) } || { _raw_spin_lock(x) }
             || { _raw_spin_lock_irq(x) } || { _raw_spin_lock_bh(x) } || { mutex_lock(x) } || { down_read(x) } || { down_write(x) }
             || { _raw_read_lock(x) } || { _raw_read_lock_irq(x) } || { _raw_read_lock_bh(x) } || { _raw_read_lock_irqsave(x) }
             || { _raw_write_lock(x) } || { _raw_write_lock_irq(x) } || { _raw_write_lock_bh(x) }
             || { _raw_write_lock_irqsave(x) } ==> two
       | { 0 } ==> true=stop, false=tested
       | { 1 } ==> true=tested, false=stop
       | { __builtin_unreachable() } || { panic(how) } || { do_exit(how) } ==> stop
       | { 0 } ==> done
       | { -x } && ${ mc_is_const(x) } || { ERR_PTR(x) } ==> failed
       | { call(how) } || { x = y } || { x += y } || { x -= y } || { x |= y } || { x &= y } || { ++x } || { --x } || { x++ }
             || { x-- } ==> later
       | $end_of_path$ && ${ mc_in_function("swap_start") } || $end_of_path$ && ${ mc_in_function("ddebug_proc_start") } ==> start
       | $end_of_path$ ==> start, { err("a lock that was taken on this path is still held"); };
  later: { spin_trylock(x) } || { spin_trylock_bh(x) } || { _raw_spin_trylock(x) } || { mutex_trylock(x) } || { down_read_trylock(x) }
             || { down_write_trylock(x) } || { mmap_read_trylock(x) } || { mmap_write_trylock(x) } ==> true=two, false=later
       | { mutex_lock_interruptible(x) } || { mutex_lock_killable(x) } || { down_read_killable(x) } || { down_read_interruptible(x) }
             || { down_write_killable(x) } || { mmap_read_lock_killable(x) } || { mmap_write_lock_killable(x) } ==> true=later, false=two
       | { spin_unlock(x) } || { spin_unlock_irq(x) } || { spin_unlock_bh(x) } || { spin_unlock_irqrestore(x, y) }
             || { _raw_spin_unlock(x) } || { _raw_spin_unlock_irq(x) } || { _raw_spin_unlock_bh(x) }
             || { _raw_spin_unlock_irqrestore(x, y) } || { mutex_unlock(x) } || { up_read(x) } || { up_write(x) }
             || { _raw_read_unlock(x) } || { _raw_read_unlock_irq(x) } || { _raw_read_unlock_bh(x) }
             || { _raw_read_unlock_irqrestore(x, y) } || { _raw_write_unlock(x) } || { _raw_write_unlock_irq(x) }
             || { _raw_write_unlock_bh(x) } || { _raw_write_unlock_irqrestore(x, y) } ==> start
       | { spin_lock(x) } || { spin_lock_irq(x) } || { spin_lock_bh(x) } || { _raw_spin_lock_irqsave(x) } || { _raw_spin_lock(x) }
             || { _raw_spin_lock_irq(x) } || { _raw_spin_lock_bh(x) } || { mutex_lock(x) } || { down_read(x) } || { down_write(x) }
             || { _raw_read_lock(x) } || { _raw_read_lock_irq(x) } || { _raw_read_lock_bh(x) } || { _raw_read_lock_irqsave(x) }
             || { _raw_write_lock(x) } || { _raw_write_lock_irq(x) } || { _raw_write_lock_bh(x) }
             || { _raw_write_lock_irqsave(x) } ==> two
       | { 0 } ==> true=stop, false=later
       | { 1 } ==> true=later, false=stop
       | { __builtin_unreachable() } || { panic(how) } || { do_exit(how) } ==> stop
       | { 0 } ==> done
       | { -x } && ${ mc_is_const(x) } || { ERR_PTR(x) } ==> failed;
  failed: { spin_unlock(x) } || { spin_unlock_irq(x) } || { spin_unlock_bh(x) } || { spin_unlock_irqrestore(x, y) }
             || { _raw_spin_unlock(x) } || { _raw_spin_unlock_irq(x) } || { _raw_spin_unlock_bh(x) }
             || { _raw_spin_unlock_irqrestore(x, y) } || { mutex_unlock(x) } || { up_read(x) } || { up_write(x) }
             || { _raw_read_unlock(x) } || { _raw_read_unlock_irq(x) } || { _raw_read_unlock_bh(x) }
             || { _raw_read_unlock_irqrestore(x, y) } || { _raw_write_unlock(x) } || { _raw_write_unlock_irq(x) }
             || { _raw_write_unlock_bh(x) } || { _raw_write_unlock_irqrestore(x, y) } ==> start
       | { spin_lock(x) } || { spin_lock_irq(x) } || { spin_lock_bh(x) } || { _raw_spin_lock_irqsave(x) } || { _raw_spin_lock(x) }
             || { _raw_spin_lock_irq(x) } || { _raw_spin_lock_bh(x) } || { mutex_lock(x) } || { down_read(x) } || { down_write(x) }
             || { _raw_read_lock(x) } || { _raw_read_lock_irq(x) } || { _raw_read_lock_bh(x) } || { _raw_read_lock_irqsave(x) }
             || { _raw_write_lock(x) } || { _raw_write_lock_irq(x) } || { _raw_write_lock_bh(x) }
             || { _raw_write_lock_irqsave(x) } ==> two
       | { 0 } ==> true=stop, false=failed
       | { 1 } ==> true=failed, false=stop
       | { __builtin_unreachable() } || { panic(how) } || { do_exit(how) } ==> stop
       | { ERR_PTR(x) } ==> failed
       | { call(how) } || { x = y } || { x += y } || { x -= y } || { x |= y } || { x &= y } || { ++x } || { --x } || { x++ } || { x-- }
             || { x < y } || { x > y } || { x <= y } || { x >= y } || { x == y } || { x != y } ==> later
       | { x } ==> true=later, false=later
       | $end_of_path$ && ${ mc_in_function("swap_start") } || $end_of_path$ && ${ mc_in_function("ddebug_proc_start") } ==> start
       | $end_of_path$ ==> start, { err("a lock that was taken on this path is still held"); };
  // Where 0 is returned, the caller tests that, and has the lock.
  done: { spin_unlock(x) } || { spin_unlock_irq(x) } || { spin_unlock_bh(x) } || { spin_unlock_irqrestore(x, y) }
             || { _raw_spin_unlock(x) } || { _raw_spin_unlock_irq(x) } || { _raw_spin_unlock_bh(x) }
             || { _raw_spin_unlock_irqrestore(x, y) } || { mutex_unlock(x) } || { up_read(x) } || { up_write(x) }
             || { _raw_read_unlock(x) } || { _raw_read_unlock_irq(x) } || { _raw_read_unlock_bh(x) }
             || { _raw_read_unlock_irqrestore(x, y) } || { _raw_write_unlock(x) } || { _raw_write_unlock_irq(x) }
             || { _raw_write_unlock_bh(x) } || { _raw_write_unlock_irqrestore(x, y) } ==> start
       | { spin_lock(x) } || { spin_lock_irq(x) } || { spin_lock_bh(x) } || { _raw_spin_lock_irqsave(x) } || { _raw_spin_lock(x) }
             || { _raw_spin_lock_irq(x) } || { _raw_spin_lock_bh(x) } || { mutex_lock(x) } || { down_read(x) } || { down_write(x) }
             || { _raw_read_lock(x) } || { _raw_read_lock_irq(x) } || { _raw_read_lock_bh(x) } || { _raw_read_lock_irqsave(x) }
             || { _raw_write_lock(x) } || { _raw_write_lock_irq(x) } || { _raw_write_lock_bh(x) }
             || { _raw_write_lock_irqsave(x) } ==> two
       | { x = 0 } || { x == 0 } || { x != 0 } || { x < 0 } || { x >= 0 } || { x > 0 } || { x <= 0 } ==> later
       | { (void *)0 } ==> failed
       | { x = y } ==> given
       | { 0 } ==> true=stop, false=done
       | { 1 } ==> true=done, false=stop
       | { __builtin_unreachable() } || { panic(how) } || { do_exit(how) } ==> stop
       | { call(how) } ==> later
       | { x } ==> true=start, false=taken;
  given: { spin_unlock(x) } || { spin_unlock_irq(x) } || { spin_unlock_bh(x) } || { spin_unlock_irqrestore(x, y) }
             || { _raw_spin_unlock(x) } || { _raw_spin_unlock_irq(x) } || { _raw_spin_unlock_bh(x) }
             || { _raw_spin_unlock_irqrestore(x, y) } || { mutex_unlock(x) } || { up_read(x) } || { up_write(x) }
             || { _raw_read_unlock(x) } || { _raw_read_unlock_irq(x) } || { _raw_read_unlock_bh(x) }
             || { _raw_read_unlock_irqrestore(x, y) } || { _raw_write_unlock(x) } || { _raw_write_unlock_irq(x) }
             || { _raw_write_unlock_bh(x) } || { _raw_write_unlock_irqrestore(x, y) } ==> start
       | { spin_lock(x) } || { spin_lock_irq(x) } || { spin_lock_bh(x) } || { _raw_spin_lock_irqsave(x) } || { _raw_spin_lock(x) }
             || { _raw_spin_lock_irq(x) } || { _raw_spin_lock_bh(x) } || { mutex_lock(x) } || { down_read(x) } || { down_write(x) }
             || { _raw_read_lock(x) } || { _raw_read_lock_irq(x) } || { _raw_read_lock_bh(x) } || { _raw_read_lock_irqsave(x) }
             || { _raw_write_lock(x) } || { _raw_write_lock_irq(x) } || { _raw_write_lock_bh(x) }
             || { _raw_write_lock_irqsave(x) } ==> two
       | { 0 } ==> true=stop, false=given
       | { 1 } ==> true=given, false=stop
       | { __builtin_unreachable() } || { panic(how) } || { do_exit(how) } ==> stop
       | { x } ==> true=start, false=taken;
  two: { spin_unlock(x) } || { spin_unlock_irq(x) } || { spin_unlock_bh(x) } || { spin_unlock_irqrestore(x, y) }
             || { _raw_spin_unlock(x) } || { _raw_spin_unlock_irq(x) } || { _raw_spin_unlock_bh(x) }
             || { _raw_spin_unlock_irqrestore(x, y) } || { mutex_unlock(x) } || { up_read(x) } || { up_write(x) }
             || { _raw_read_unlock(x) } || { _raw_read_unlock_irq(x) } || { _raw_read_unlock_bh(x) }
             || { _raw_read_unlock_irqrestore(x, y) } || { _raw_write_unlock(x) } || { _raw_write_unlock_irq(x) }
             || { _raw_write_unlock_bh(x) } || { _raw_write_unlock_irqrestore(x, y) } ==> taken
       | { spin_lock(x) } || { spin_lock_irq(x) } || { spin_lock_bh(x) } || { _raw_spin_lock_irqsave(x) } || { _raw_spin_lock(x) }
             || { _raw_spin_lock_irq(x) } || { _raw_spin_lock_bh(x) } || { mutex_lock(x) } || { down_read(x) } || { down_write(x) }
             || { _raw_read_lock(x) } || { _raw_read_lock_irq(x) } || { _raw_read_lock_bh(x) } || { _raw_read_lock_irqsave(x) }
             || { _raw_write_lock(x) } || { _raw_write_lock_irq(x) } || { _raw_write_lock_bh(x) }
             || { _raw_write_lock_irqsave(x) } ==> two
       | { 0 } ==> true=stop, false=two
       | { 1 } ==> true=two, false=stop
       | { __builtin_unreachable() } || { panic(how) } || { do_exit(how) } ==> stop
       | { -x } && ${ mc_is_const(x) } || { ERR_PTR(x) } ==> two_failed;
  two_failed: { spin_unlock(x) } || { spin_unlock_irq(x) } || { spin_unlock_bh(x) } || { spin_unlock_irqrestore(x, y) }
             || { _raw_spin_unlock(x) } || { _raw_spin_unlock_irq(x) } || { _raw_spin_unlock_bh(x) }
             || { _raw_spin_unlock_irqrestore(x, y) } || { mutex_unlock(x) } || { up_read(x) } || { up_write(x) }
             || { _raw_read_unlock(x) } || { _raw_read_unlock_irq(x) } || { _raw_read_unlock_bh(x) }
             || { _raw_read_unlock_irqrestore(x, y) } || { _raw_write_unlock(x) } || { _raw_write_unlock_irq(x) }
             || { _raw_write_unlock_bh(x) } || { _raw_write_unlock_irqrestore(x, y) } ==> taken
       | { spin_lock(x) } || { spin_lock_irq(x) } || { spin_lock_bh(x) } || { _raw_spin_lock_irqsave(x) } || { _raw_spin_lock(x) }
             || { _raw_spin_lock_irq(x) } || { _raw_spin_lock_bh(x) } || { mutex_lock(x) } || { down_read(x) } || { down_write(x) }
             || { _raw_read_lock(x) } || { _raw_read_lock_irq(x) } || { _raw_read_lock_bh(x) } || { _raw_read_lock_irqsave(x) }
             || { _raw_write_lock(x) } || { _raw_write_lock_irq(x) } || { _raw_write_lock_bh(x) }
             || { _raw_write_lock_irqsave(x) } ==> two
       | { 0 } ==> true=stop, false=two_failed
       | { 1 } ==> true=two_failed, false=stop
       | { __builtin_unreachable() } || { panic(how) } || { do_exit(how) } ==> stop
       | { ERR_PTR(x) } ==> two_failed
       | { call(how) } || { x = y } || { x += y } || { x -= y } || { x |= y } || { x &= y } || { ++x } || { --x } || { x++ } || { x-- }
             || { x < y } || { x > y } || { x <= y } || { x >= y } || { x == y } || { x != y } ==> two
       | { x } ==> true=two, false=two
       | $end_of_path$ ==> start, { err("a lock that was taken on this path is still held"); };
}
