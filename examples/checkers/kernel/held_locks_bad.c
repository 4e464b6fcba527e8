typedef struct { int raw; } raw_spinlock_t;
typedef struct { raw_spinlock_t rlock; } spinlock_t;
typedef struct { int raw; } rwlock_t;
struct mutex { int owner; };
struct rw_semaphore { int count; };
void spin_lock(spinlock_t *); void spin_unlock(spinlock_t *); int spin_trylock(spinlock_t *);
raw_spinlock_t *spinlock_check(spinlock_t *);
int _raw_spin_trylock(raw_spinlock_t *); unsigned long arch_local_irq_save(void); void arch_local_irq_restore(unsigned long);
unsigned long _raw_spin_lock_irqsave(raw_spinlock_t *); void spin_unlock_irqrestore(spinlock_t *, unsigned long);
void mutex_lock(struct mutex *); void mutex_unlock(struct mutex *); int mutex_lock_interruptible(struct mutex *);
void _raw_read_lock(rwlock_t *); void _raw_read_unlock(rwlock_t *);
void down_write(struct rw_semaphore *); void downgrade_write(struct rw_semaphore *); void up_read(struct rw_semaphore *);
void *ERR_PTR(long);
void tell(const char *);
struct port { spinlock_t lock; struct mutex setup; rwlock_t table; struct rw_semaphore users; int open; struct port *next; };

int left(struct port *p)
{
    unsigned long flags;
    { flags = _raw_spin_lock_irqsave(spinlock_check(&p->lock)); }
    if (p->open)
        return -1;                              /* wants: a lock that was taken on this path is still held */
    spin_unlock_irqrestore(&p->lock, flags);
    return 0;
}

void left_quietly(struct port *p)
{
    spin_lock(&p->lock);
    if (!p->open)
        return;                                 /* wants: a lock that was taken on this path is still held */
    spin_unlock(&p->lock);
}

int told(struct port *p, int n)
{
    int ret;
    ret = mutex_lock_interruptible(&p->setup);
    if (ret)
        return ret;
    if (n < 0) {
        tell("a number below zero");
        return -22;                             /* wants: a lock that was taken on this path is still held */
    }
    mutex_unlock(&p->setup);
    return 0;
}

void *looked_up(struct port *p)
{
    _raw_read_lock(&p->table);
    if (!p->next) {
        tell("the last one");
        return ERR_PTR(-19);                    /* wants: a lock that was taken on this path is still held */
    }
    _raw_read_unlock(&p->table);
    return p->next;
}

static void begin(struct port *p)
{
    mutex_lock(&p->setup);
}

int stepped(struct port *p)
{
    begin(p);
    spin_lock(&p->lock);
    if (p->open < 0)
        return -1;                              /* wants: a lock that was taken on this path is still held */
    spin_unlock(&p->lock);
    if (p->open > 9)
        return -2;                              /* wants: a lock that was taken on this path is still held */
    mutex_unlock(&p->setup);
    return 0;
}

int tried(struct port *p)
{
    if (!spin_trylock(&p->lock))
        return -16;
    if (p->open)
        return -16;                             /* wants: a lock that was taken on this path is still held */
    spin_unlock(&p->lock);
    return 0;
}

int tables(struct port *p)
{
    down_write(&p->users);
    downgrade_write(&p->users);
    if (p->open)
        return p->open;                         /* wants: a lock that was taken on this path is still held */
    up_read(&p->users);
    return 0;
}

int entry(struct port *p, int *kept)
{
    spinlock_t *ptl;
    { spinlock_t *__ptl = &p->lock; *(&ptl) = __ptl; spin_lock(__ptl); }
    if (!p->open)
        return -1;                              /* wants: a lock that was taken on this path is still held */
    *kept = p->open;
    spin_unlock(ptl);
    return 0;
}

int attempt(struct port *p, unsigned long *flags)
{
    if (!(*flags = arch_local_irq_save(), _raw_spin_trylock(spinlock_check(&p->lock)) ? 1 : (arch_local_irq_restore(*flags), 0)))
        return 0;
    if (p->open)
        return -1;                              /* wants: a lock that was taken on this path is still held */
    spin_unlock_irqrestore(&p->lock, *flags);
    return 1;
}

struct port *next_open(struct port *p)
{
    spin_lock(&p->lock);
    while (p->next && !p->next->open)
        p = p->next;
    if (!p->next) {
        tell("none is open");
        return (void *)0;                       /* wants: a lock that was taken on this path is still held */
    }
    spin_unlock(&p->lock);
    return p->next;
}

/* Taken by a function that says whether it has. */
static int claim(struct port *p)
{
    mutex_lock(&p->setup);
    if (p->open) {
        mutex_unlock(&p->setup);
        return -16;
    }
    return 0;
}

int claimed(struct port *p, int n)
{
    int ret = claim(p);
    if (ret < 0)
        return ret;
    if (n < 0)
        return -22;                             /* wants: a lock that was taken on this path is still held */
    mutex_unlock(&p->setup);
    return 0;
}

struct port *find_open(struct port *p);

int open_found(struct port *p)
{
    struct port *found;
    spin_lock(&p->lock);
    found = find_open(p);
    if (!found)
        return -2;                              /* wants: a lock that was taken on this path is still held */
    found->open++;
    spin_unlock(&p->lock);
    return 0;
}
