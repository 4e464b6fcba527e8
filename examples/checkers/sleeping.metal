// A function that may sleep is called while a spin lock is held. Two locks may be held, one inside the other.
sm sleeping {
  decl any_expr l, x, y, z;

  start: { spin_lock(l) } || { spin_lock_bh(l) } || { rcu_read_lock() } ==> one
       | { 0 } ==> true=stop, false=start
       | { 1 } ==> true=start, false=stop;
  one:   { spin_lock(l) } || { spin_lock_bh(l) } || { rcu_read_lock() } ==> two
       | { spin_unlock(l) } || { spin_unlock_bh(l) } || { rcu_read_unlock() } ==> start
       | { msleep(x) } || { schedule() } || { mutex_lock(x) } || { wait_for_completion(x) }
             || { copy_to_user(x, y, z) } || { copy_from_user(x, y, z) }
             ==> one, { err("a function that may sleep is called under a spin lock"); }
       | { 0 } ==> true=stop, false=one
       | { 1 } ==> true=one, false=stop;
  two:   { spin_unlock(l) } || { spin_unlock_bh(l) } || { rcu_read_unlock() } ==> one
       | { msleep(x) } || { schedule() } || { mutex_lock(x) } || { wait_for_completion(x) }
             || { copy_to_user(x, y, z) } || { copy_from_user(x, y, z) }
             ==> two, { err("a function that may sleep is called under two spin locks"); }
       | { 0 } ==> true=stop, false=two
       | { 1 } ==> true=two, false=stop;
}
