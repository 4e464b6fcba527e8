// A mutex that the path took is forgotten by a return directly behind a test. Which one isn't asked: a path holds none, one, or two. Those of
// an array are left out: mostly a loop takes them, and another function releases them.
sm held_mutexes {
  decl any_pointer p;
  decl any_fn_call call;
  decl any_arguments how;
  decl any_expr x, y;

  start: { pthread_mutex_trylock(x) } || { pthread_mutex_timedlock(x, y) } ==> true=start, false=taken
       | { mtx_trylock(x) == thrd_success } ==> true=taken, false=start
       | { mtx_trylock(x) != thrd_success } ==> true=start, false=taken
       | { pthread_mutex_lock(&x[y]) } || { mtx_lock(&x[y]) } ==> start
       | { pthread_mutex_lock(x) } || { mtx_lock(x) } ==> taken
       | { exit(how) } || { _exit(how) } || { abort() } || { longjmp(how) } || { siglongjmp(how) } || { pthread_exit(how) } ==> stop
       | { 0 } ==> true=stop, false=start
       | { 1 } ==> true=start, false=stop
       | { p } || { x < y } || { x > y } || { x <= y } || { x >= y } || { x == y } || { x != y } || { call(how) } || { x = y }
             ==> true=start, false=start
       | { x } ==> true=flag, false=start;

  // What is taken first of all where a flag is set is released where that is set, and no condition is known.
  flag:  { pthread_mutex_lock(x) } || { mtx_lock(x) } ==> lent
       | { exit(how) } || { _exit(how) } || { abort() } || { longjmp(how) } || { siglongjmp(how) } || { pthread_exit(how) } ==> stop
       | { call(how) } || { x = y } ==> start
       | { 0 } ==> true=stop, false=flag
       | { 1 } ==> true=flag, false=stop
       | { x } ==> true=start, false=start;
  lent:  { pthread_mutex_unlock(x) } || { mtx_unlock(x) } ==> start
       | { exit(how) } || { _exit(how) } || { abort() } || { longjmp(how) } || { siglongjmp(how) } || { pthread_exit(how) } ==> stop
       | { 0 } ==> true=stop, false=lent
       | { 1 } ==> true=lent, false=stop;

  // A function that goes on to its end with the mutex hands it on, as queue_lock; one that ends where a test has come out forgets it.
  taken: { pthread_mutex_lock(x) } || { mtx_lock(x) != thrd_success } ==> true=start, false=taken
       | { mtx_lock(x) == thrd_success } ==> true=taken, false=start
       | { x = pthread_mutex_lock(y) } || { x = mtx_lock(y) } ==> lent
       | { pthread_mutex_unlock(x) } || { mtx_unlock(x) } ==> start
       | { pthread_mutex_lock(x) } || { mtx_lock(x) } ==> two
       | { pthread_mutex_trylock(x) } ==> true=held, false=two
       | { exit(how) } || { _exit(how) } || { abort() } || { longjmp(how) } || { siglongjmp(how) } || { pthread_exit(how) } ==> stop
       | { 0 } ==> true=stop, false=taken
       | { 1 } ==> true=taken, false=stop
       | { x } ==> true=held, false=held;
  held:  { pthread_mutex_unlock(x) } || { mtx_unlock(x) } ==> start
       | { pthread_mutex_lock(x) } || { mtx_lock(x) } ==> two
       | { pthread_mutex_trylock(x) } ==> true=held, false=two
       | { exit(how) } || { _exit(how) } || { abort() } || { longjmp(how) } || { siglongjmp(how) } || { pthread_exit(how) } ==> stop
       | { 0 } ==> true=stop, false=held
       | { 1 } ==> true=held, false=stop
       | { call(how) } || { x = y } || { x += y } || { x -= y } || { x |= y } || { x &= y } || { ++x } || { --x }
             || { x++ } || { x-- } ==> taken
       | $end_of_path$ ==> start, { err("a mutex that was taken on this path is still held"); };
  two:   { pthread_mutex_unlock(x) } || { mtx_unlock(x) } ==> taken
       | { exit(how) } || { _exit(how) } || { abort() } || { longjmp(how) } || { siglongjmp(how) } || { pthread_exit(how) } ==> stop
       | { 0 } ==> true=stop, false=two
       | { 1 } ==> true=two, false=stop;
}
