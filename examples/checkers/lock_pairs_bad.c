struct spinlock { int raw; }; struct mutex { int raw; };
void spin_lock(struct spinlock *); void spin_unlock(struct spinlock *); int spin_trylock(struct spinlock *);
void mutex_lock(struct mutex *); void mutex_unlock(struct mutex *); int mutex_lock_interruptible(struct mutex *);

struct queue { struct spinlock lock; struct mutex setup; int length; };

int take(struct queue *q)
{
    spin_lock(&q->lock);
    if (q->length == 0)
        return -1;                      /* wants: &q->lock is still held at the end */
    spin_unlock(&q->lock);
    return 0;
}

static void count(struct queue *q)
{
    spin_lock(&q->lock);                /* wants: &q->lock is taken twice */
    q->length++;
}

void put(struct queue *q)
{
    spin_lock(&q->lock);
    count(q);
    spin_unlock(&q->lock);
}

int configure(struct queue *q)
{
    if (mutex_lock_interruptible(&q->setup))
        return -1;
    spin_unlock((struct spinlock *)&q->setup);  /* wants: &q->setup is a mutex and is released as a spin lock */
    mutex_lock(&q->setup);
    mutex_lock(&q->setup);              /* wants: &q->setup is taken twice */
    return 0;                           /* wants: &q->setup is still held at the end */
}

void mixed(struct queue *q)
{
    if (spin_trylock(&q->lock))
        mutex_unlock((struct mutex *)&q->lock); /* wants: &q->lock is a spin lock and is released as a mutex */
}
