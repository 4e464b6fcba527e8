typedef struct { int raw; } raw_spinlock_t;
typedef struct { raw_spinlock_t rlock; } spinlock_t;
typedef struct { int raw; } rwlock_t;
struct mutex { int owner; };
struct rw_semaphore { int count; };
void spin_lock(spinlock_t *); void spin_unlock(spinlock_t *); int spin_trylock(spinlock_t *);
raw_spinlock_t *spinlock_check(spinlock_t *);
int _raw_spin_trylock(raw_spinlock_t *); unsigned long arch_local_irq_save(void); void arch_local_irq_restore(unsigned long);
unsigned long _raw_spin_lock_irqsave(raw_spinlock_t *); void spin_unlock_irqrestore(spinlock_t *, unsigned long);
void mutex_lock(struct mutex *); void mutex_unlock(struct mutex *); int mutex_lock_interruptible(struct mutex *);
int mutex_lock_killable(struct mutex *);
unsigned long _raw_write_lock_irqsave(rwlock_t *); void _raw_write_unlock_irqrestore(rwlock_t *, unsigned long);
int down_write_killable(struct rw_semaphore *); void up_write(struct rw_semaphore *);
void __builtin_unreachable(void);
void tell(const char *);
struct port { spinlock_t *lock; struct mutex setup; rwlock_t table; struct rw_semaphore users; int open, ready; struct port *next; };
struct command { struct port *port; };

/* One lock by two names, and asked by a function that reaches it in its own way. */
static int unfinished(struct command *c)
{
    struct port *p = c->port;
    if (p->open)
        return -16;
    return 0;
}

int finish(struct command *c, struct port *p)
{
    unsigned long flags;
    int ret;
    { flags = _raw_spin_lock_irqsave(spinlock_check(c->port->lock)); }
    ret = unfinished(c);
    spin_unlock_irqrestore(p->lock, flags);
    if (ret)
        return ret;
    return 0;
}

static void begin(struct port *p)
{
    mutex_lock(&p->setup);
}

static void end(struct port *p)
{
    mutex_unlock(&p->setup);
}

int setup(struct port *p)
{
    begin(p);
    p->open = 1;
    end(p);
    if (mutex_lock_killable(&p->setup))
        return -4;
    mutex_unlock(&p->setup);
    if (!spin_trylock(p->lock))
        return -11;
    spin_unlock(p->lock);
    return -1;
}

int result_kept(struct port *p)
{
    int ret = mutex_lock_interruptible(&p->setup);
    if (ret)
        return ret;
    ret = p->open ? 0 : -19;
    mutex_unlock(&p->setup);
    return ret;
}

int gone(struct port *p)
{
    int ret = 0;
    spin_lock(p->lock);
    if (!p->open) {
        ret = -19;
        goto out;
    }
    if (p->ready < 0)
        __builtin_unreachable();
    p->ready = 1;
out:
    spin_unlock(p->lock);
    return ret;
}

void wait(struct port *p)
{
    spin_lock(p->lock);
    while (1) {
        if (p->open) {
            spin_unlock(p->lock);
            return;
        }
    }
}

/* What the caller asks for by a flag is released by the same flag. */
int step(struct port *p, int locked)
{
    if (locked)
        mutex_lock(&p->setup);
    p->open++;
    if (locked)
        mutex_unlock(&p->setup);
    if (p->open > 9)
        return -1;
    return 0;
}

/* Held by the caller, released for a while. */
int wait_for(struct port *p)
{
    mutex_unlock(&p->setup);
    tell("waits");
    mutex_lock(&p->setup);
    if (p->open)
        return -16;
    return 0;
}

/* Handed on. */
void lock_port(struct port *p)
{
    spin_lock(p->lock);
}

struct port *first(struct port *p)
{
    mutex_lock(&p->setup);
    return p->next;
}

int lock_users(struct port *p)
{
    if (down_write_killable(&p->users))
        return -4;
    return 0;
}

int attempt(struct port *p, unsigned long *flags)
{
    if ((*flags = arch_local_irq_save(), _raw_spin_trylock(spinlock_check(p->lock)) ? 1 : (arch_local_irq_restore(*flags), 0)))
        return 1;
    return 0;
}

int tables(struct port *p)
{
    unsigned long flags;
    { flags = _raw_write_lock_irqsave(&p->table); }
    if (p->open)
        p->ready = 0;
    _raw_write_unlock_irqrestore(&p->table, flags);
    if (p->open)
        return -1;
    return 0;
}

/* Taken by a function that says whether it has. */
static int claim(struct port *p)
{
    mutex_lock(&p->setup);
    if (p->open) {
        mutex_unlock(&p->setup);
        return -16;
    }
    return 0;
}

int claimed(struct port *p)
{
    int ret = claim(p);
    if (ret < 0)
        return ret;
    mutex_unlock(&p->setup);
    return 0;
}

int claimed_at_once(struct port *p)
{
    if (claim(p))
        return -16;
    mutex_unlock(&p->setup);
    return 0;
}

/* One lock by one of two ways, and by the same one back. */
int either(struct port *p)
{
    int ret = 0;
    if (p->ready)
        mutex_lock(&p->setup);
    else
        spin_lock(p->lock);
    if (p->open < 0)
        ret = -1;
    p->open = 0;
    if (p->ready)
        mutex_unlock(&p->setup);
    else
        spin_unlock(p->lock);
    return ret;
}

/* Begins to write lines, and hands the lock on. */
void *swap_start(struct port *p, int n)
{
    mutex_lock(&p->setup);
    if (!n)
        return (void *)1;
    while (p->next) {
        if (!--n)
            return p;
        p = p->next;
    }
    return (void *)0;
}

/* Null where it hasn't taken it. */
static struct port *locked_next(struct port *p)
{
    return p->open ? (void *)0 : (spin_lock(p->lock), p->next);
}

int step_next(struct port *p)
{
    struct port *next = locked_next(p);
    if (!next)
        return -12;
    next->open++;
    spin_unlock(p->lock);
    return 0;
}
