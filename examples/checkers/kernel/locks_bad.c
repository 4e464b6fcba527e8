typedef struct { int raw; } raw_spinlock_t;
typedef struct { raw_spinlock_t rlock; } spinlock_t;
typedef struct { int raw; } rwlock_t;
struct mutex { int owner; };
struct rw_semaphore { int count; };
void spin_lock(spinlock_t *); void spin_unlock(spinlock_t *); int spin_trylock(spinlock_t *);
raw_spinlock_t *spinlock_check(spinlock_t *);
int _raw_spin_trylock(raw_spinlock_t *); unsigned long arch_local_irq_save(void); void arch_local_irq_restore(unsigned long);
unsigned long _raw_spin_lock_irqsave(raw_spinlock_t *); void spin_unlock_irqrestore(spinlock_t *, unsigned long);
void mutex_lock(struct mutex *); void mutex_unlock(struct mutex *); int mutex_lock_interruptible(struct mutex *);
void _raw_read_lock(rwlock_t *); void _raw_read_unlock(rwlock_t *); void _raw_write_lock(rwlock_t *); void _raw_write_unlock(rwlock_t *);
void down_read(struct rw_semaphore *); void up_read(struct rw_semaphore *); void up_write(struct rw_semaphore *);
void down_write(struct rw_semaphore *); void downgrade_write(struct rw_semaphore *);
struct port { spinlock_t lock; struct mutex setup; rwlock_t table; struct rw_semaphore users; int open; };

int again(struct port *p)
{
    unsigned long flags;
    { flags = _raw_spin_lock_irqsave(spinlock_check(&p->lock)); }
    if (p->open)
        spin_lock(&p->lock);                    /* wants: &p->lock is taken twice */
    spin_unlock_irqrestore(&p->lock, flags);
    return 0;
}

static void count(struct port *p)
{
    spin_lock(&p->lock);                        /* wants: &p->lock is taken twice */
    p->open++;
    spin_unlock(&p->lock);
}

void counted(struct port *p)
{
    spin_lock(&p->lock);
    count(p);
}

int mixed(struct port *p)
{
    if (mutex_lock_interruptible(&p->setup))
        return -1;
    spin_unlock((spinlock_t *)&p->setup);       /* wants: &p->setup is a mutex and is released as a spin lock */
    mutex_lock(&p->setup);
    mutex_lock(&p->setup);                      /* wants: &p->setup is taken twice */
    return 0;
}

void tried(struct port *p)
{
    if (spin_trylock(&p->lock))
        mutex_unlock((struct mutex *)&p->lock); /* wants: &p->lock is a spin lock and is released as a mutex */
}

int tables(struct port *p)
{
    _raw_read_lock(&p->table);
    _raw_write_lock(&p->table);                 /* wants: &p->table is taken for writing while it is held for reading */
    _raw_read_unlock(&p->table);                /* wants: &p->table is held for writing and released as by a reader */
    _raw_read_lock(&p->table);
    _raw_write_unlock(&p->table);               /* wants: &p->table is held for reading and released as by a writer */
    down_write(&p->users);
    down_read(&p->users);                       /* wants: &p->users is taken twice */
    if (p->open)
        return 1;
    downgrade_write(&p->users);
    return 0;
}

void entry(struct port *p, int *kept)
{
    spinlock_t *ptl;
    { spinlock_t *__ptl = &p->lock; *(&ptl) = __ptl; spin_lock(__ptl); }
    *kept = p->open;
    spin_lock(ptl);                             /* wants: ptl is taken twice */
    spin_unlock(ptl);
}

int attempt(struct port *p, unsigned long *flags)
{
    if (!(*flags = arch_local_irq_save(), _raw_spin_trylock(spinlock_check(&p->lock)) ? 1 : (arch_local_irq_restore(*flags), 0)))
        return 0;
    spin_lock(&p->lock);                        /* wants: &p->lock is taken twice */
    spin_unlock_irqrestore(&p->lock, *flags);
    return 1;
}

/* Held by the caller, released for a while, and taken once more than that. */
void wait_for(struct port *p)
{
    mutex_unlock(&p->setup);
    mutex_lock(&p->setup);
    mutex_lock(&p->setup);                      /* wants: &p->setup is taken twice */
}
