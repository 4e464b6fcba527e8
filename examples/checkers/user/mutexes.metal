// A mutex is neither taken nor released twice, and isn't destroyed while it is held. That it is released: held_mutexes.metal.
sm mutexes {
  state decl any_pointer m;
  decl any_fn_call call;
  decl any_arguments how;
  decl any_expr x, y;

  start:  { pthread_mutex_trylock(m) } || { pthread_mutex_timedlock(m, x) } ==> true=m.stop, false=m.held
        | { mtx_trylock(m) == thrd_success } ==> true=m.held, false=m.stop
        | { mtx_trylock(m) != thrd_success } ==> true=m.stop, false=m.held
        | { pthread_mutex_lock(m) } || { mtx_lock(m) } ==> m.held
        | { pthread_mutex_destroy(m) } || { mtx_destroy(m) } ==> m.gone
        | { exit(how) } || { _exit(how) } || { abort() } || { longjmp(how) } || { siglongjmp(how) } || { pthread_exit(how) } ==> stop
        | { 0 } ==> true=stop, false=start
        | { 1 } ==> true=start, false=stop
        | { x < y } || { x > y } || { x <= y } || { x >= y } || { x == y } || { x != y } || { call(how) } || { x = y }
              ==> true=start, false=start
        | { x } ==> true=flag, false=start;

  // What is taken first of all where a flag is set is released where that is set, and no condition is known.
  flag:   { pthread_mutex_trylock(m) } || { pthread_mutex_timedlock(m, x) } ==> true=m.stop, false=m.held
        | { mtx_trylock(m) == thrd_success } ==> true=m.held, false=m.stop
        | { mtx_trylock(m) != thrd_success } ==> true=m.stop, false=m.held
        | { pthread_mutex_lock(m) } || { mtx_lock(m) } ==> m.lent
        | { pthread_mutex_destroy(m) } || { mtx_destroy(m) } ==> m.gone
        | { exit(how) } || { _exit(how) } || { abort() } || { longjmp(how) } || { siglongjmp(how) } || { pthread_exit(how) } ==> stop
        | { 0 } ==> true=stop, false=flag
        | { 1 } ==> true=flag, false=stop
        | { x < y } || { x > y } || { x <= y } || { x >= y } || { x == y } || { x != y } ==> true=start, false=start
        | { call(how) } || { x = y } ==> start
        | { x } ==> true=flag, false=start;
  m.lent: { pthread_mutex_unlock(m) } || { mtx_unlock(m) } ==> m.stop
        | { pthread_mutex_destroy(m) } || { mtx_destroy(m) } ==> m.gone;

  m.held: { pthread_mutex_lock(m) } ==> true=m.stop, false=m.held
        | { mtx_lock(m) == thrd_success } ==> true=m.held, false=m.stop
        | { mtx_lock(m) != thrd_success } ==> true=m.stop, false=m.held
        | { pthread_mutex_lock(m) } || { mtx_lock(m) } ==> m.held, { err("%s is taken twice", mc_identifier(m)); }
        | { pthread_mutex_unlock(m) } || { mtx_unlock(m) } ==> m.free
        | { pthread_mutex_destroy(m) } || { mtx_destroy(m) } ==> m.gone, { err("%s is destroyed while it is held", mc_identifier(m)); };

  m.free: { pthread_mutex_unlock(m) } || { mtx_unlock(m) } ==> m.stop, { err("%s is released twice", mc_identifier(m)); }
        | { pthread_cond_wait(x, m) } || { pthread_cond_timedwait(x, m, y) } || { cnd_wait(x, m) }
              ==> m.stop, { err("a condition is waited for without %s", mc_identifier(m)); }
        | { pthread_mutex_trylock(m) } || { pthread_mutex_timedlock(m, x) } ==> true=m.free, false=m.held
        | { mtx_trylock(m) == thrd_success } ==> true=m.held, false=m.free
        | { mtx_trylock(m) != thrd_success } ==> true=m.free, false=m.held
        | { pthread_mutex_lock(m) } || { mtx_lock(m) } ==> m.held
        | { pthread_mutex_destroy(m) } || { mtx_destroy(m) } ==> m.gone;

  m.gone: { pthread_mutex_lock(m) } || { pthread_mutex_unlock(m) } || { mtx_lock(m) } || { mtx_unlock(m) }
              ==> m.stop, { err("%s is used after it was destroyed", mc_identifier(m)); }
        | { pthread_mutex_init(m, x) } || { mtx_init(m, x) } ==> m.stop;
}
