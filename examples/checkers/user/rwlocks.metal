// A read-write lock is released on each path and once, and neither taken again by the writer nor by a reader who wants to write.
sm rwlocks {
  state decl any_pointer l;
  decl any_arguments how;
  decl any_expr x;

  start:   { pthread_rwlock_tryrdlock(l) } || { pthread_rwlock_timedrdlock(l, x) } ==> true=l.stop, false=l.read
         | { pthread_rwlock_trywrlock(l) } || { pthread_rwlock_timedwrlock(l, x) } ==> true=l.stop, false=l.write
         | { pthread_rwlock_rdlock(l) } ==> l.read
         | { pthread_rwlock_wrlock(l) } ==> l.write
         | { exit(how) } || { _exit(how) } || { abort() } || { longjmp(how) } || { siglongjmp(how) } || { pthread_exit(how) } ==> stop
         | { 0 } ==> true=stop, false=start
         | { 1 } ==> true=start, false=stop;

  // a second reader's hold is allowed; how many there are isn't counted, so such a lock isn't followed any more
  l.read:  { pthread_rwlock_rdlock(l) } ==> true=l.stop, false=l.read
         | { pthread_rwlock_rdlock(l) } ==> l.stop
         | { pthread_rwlock_wrlock(l) } ==> l.write, { err("%s is taken for writing while it is held for reading", mc_identifier(l)); }
         | { pthread_rwlock_unlock(l) } ==> l.free
         | { pthread_rwlock_destroy(l) } ==> l.stop, { err("%s is destroyed while it is held", mc_identifier(l)); }
         | $end_of_path$ ==> l.stop, { err("%s is still held at the end", mc_identifier(l)); };

  l.write: { pthread_rwlock_wrlock(l) } ==> true=l.stop, false=l.write
         | { pthread_rwlock_rdlock(l) } || { pthread_rwlock_wrlock(l) } ==> l.write, { err("%s is taken twice", mc_identifier(l)); }
         | { pthread_rwlock_unlock(l) } ==> l.free
         | { pthread_rwlock_destroy(l) } ==> l.stop, { err("%s is destroyed while it is held", mc_identifier(l)); }
         | $end_of_path$ ==> l.stop, { err("%s is still held at the end", mc_identifier(l)); };

  l.free:  { pthread_rwlock_unlock(l) } ==> l.stop, { err("%s is released twice", mc_identifier(l)); }
         | { pthread_rwlock_tryrdlock(l) } || { pthread_rwlock_timedrdlock(l, x) } ==> true=l.free, false=l.read
         | { pthread_rwlock_trywrlock(l) } || { pthread_rwlock_timedwrlock(l, x) } ==> true=l.free, false=l.write
         | { pthread_rwlock_rdlock(l) } ==> l.read
         | { pthread_rwlock_wrlock(l) } ==> l.write;
}
