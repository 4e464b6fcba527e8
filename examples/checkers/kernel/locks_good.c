typedef struct { int raw; } raw_spinlock_t;
typedef struct { raw_spinlock_t rlock; } spinlock_t;
typedef struct { int raw; } rwlock_t;
struct mutex { int owner; };
struct rw_semaphore { int count; };
void spin_lock(spinlock_t *); void spin_unlock(spinlock_t *); int spin_trylock(spinlock_t *);
raw_spinlock_t *spinlock_check(spinlock_t *);
int _raw_spin_trylock(raw_spinlock_t *); unsigned long arch_local_irq_save(void); void arch_local_irq_restore(unsigned long);
unsigned long _raw_spin_lock_irqsave(raw_spinlock_t *); void spin_unlock_irqrestore(spinlock_t *, unsigned long);
void mutex_lock(struct mutex *); void mutex_unlock(struct mutex *); int mutex_lock_killable(struct mutex *);
void _raw_read_lock(rwlock_t *); void _raw_read_unlock(rwlock_t *);
unsigned long _raw_write_lock_irqsave(rwlock_t *); void _raw_write_unlock_irqrestore(rwlock_t *, unsigned long);
int down_write_killable(struct rw_semaphore *); void downgrade_write(struct rw_semaphore *); void up_read(struct rw_semaphore *);
struct port { spinlock_t lock; struct mutex setup; rwlock_t table; struct rw_semaphore users; int open; };

int left(struct port *p)
{
    unsigned long flags;
    int open;
    { flags = _raw_spin_lock_irqsave(spinlock_check(&p->lock)); }
    open = p->open;
    spin_unlock_irqrestore(&p->lock, flags);
    return open;
}

static void begin(struct port *p)
{
    mutex_lock(&p->setup);
}

static void end(struct port *p)
{
    mutex_unlock(&p->setup);
}

int setup(struct port *p)
{
    begin(p);
    p->open = 1;
    end(p);
    if (mutex_lock_killable(&p->setup))
        return -4;
    mutex_unlock(&p->setup);
    if (!spin_trylock(&p->lock))
        return -11;
    spin_unlock(&p->lock);
    return 0;
}

int tables(struct port *p)
{
    unsigned long flags;
    _raw_read_lock(&p->table);
    _raw_read_unlock(&p->table);
    { flags = _raw_write_lock_irqsave(&p->table); }
    _raw_write_unlock_irqrestore(&p->table, flags);
    if (down_write_killable(&p->users))
        return -4;
    downgrade_write(&p->users);
    up_read(&p->users);
    return 0;
}

void wait(struct port *p)
{
    spin_lock(&p->lock);
    while (1) {
        if (p->open) {
            spin_unlock(&p->lock);
            return;
        }
    }
}

void entry(struct port *p, int *kept)
{
    spinlock_t *ptl;
    { spinlock_t *__ptl = &p->lock; *(&ptl) = __ptl; spin_lock(__ptl); }
    *kept = p->open;
    spin_unlock(ptl);
}

int attempt(struct port *p, unsigned long *flags)
{
    if ((*flags = arch_local_irq_save(), _raw_spin_trylock(spinlock_check(&p->lock)) ? 1 : (arch_local_irq_restore(*flags), 0))) {
        spin_unlock_irqrestore(&p->lock, *flags);
        return 1;
    }
    return 0;
}

/* Held by the caller, released for a while. */
int wait_for(struct port *p)
{
    mutex_unlock(&p->setup);
    while (!left(p))
        ;
    mutex_lock(&p->setup);
    return 0;
}

/* Taken and released by one flag. */
static void take(struct port *p, int sleeps)
{
    if (sleeps)
        mutex_lock(&p->setup);
}

static void give(struct port *p, int sleeps)
{
    if (sleeps)
        mutex_unlock(&p->setup);
}

void stepped(struct port *p)
{
    take(p, p->open);
    give(p, p->open);
    take(p, p->open);
    give(p, p->open);
}
