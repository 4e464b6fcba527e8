struct spinlock { int raw; }; struct mutex { int raw; };
void spin_lock(struct spinlock *); void spin_unlock(struct spinlock *); int spin_trylock(struct spinlock *);
void mutex_lock(struct mutex *); void mutex_unlock(struct mutex *); int mutex_lock_interruptible(struct mutex *);

struct queue { struct spinlock lock; struct mutex setup; int length; };

int take(struct queue *q)
{
    int taken = -1;
    spin_lock(&q->lock);
    if (q->length > 0) {
        q->length--;
        taken = 0;
    }
    spin_unlock(&q->lock);
    return taken;
}

static void begin(struct queue *q)
{
    mutex_lock(&q->setup);
}

int configure(struct queue *q)
{
    begin(q);
    mutex_unlock(&q->setup);
    if (mutex_lock_interruptible(&q->setup))
        return -1;
    mutex_unlock(&q->setup);
    return spin_trylock(&q->lock) ? spin_unlock(&q->lock), 1 : 0;
}

/* macros of statements, and a loop that isn't left by its condition */
void once(struct queue *q)
{
    do {
        spin_lock(&q->lock);
    } while (0);
    while (1) {
        if (q->length)
            break;
        q->length = 1;
    }
    do {
        spin_unlock(&q->lock);
    } while (0);
}
