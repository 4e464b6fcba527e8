struct spinlock { int raw; };
void spin_lock(struct spinlock *); void spin_unlock(struct spinlock *); void msleep(int); void schedule(void);

struct port { struct spinlock lock, list; int busy; };

void close(struct port *p)
{
    spin_lock(&p->list);
    spin_lock(&p->lock);
    p->busy = 0;
    spin_unlock(&p->lock);
    spin_unlock(&p->list);
    msleep(1);
}

/* macros of statements, and a loop that isn't left by its condition */
void once(struct port *p)
{
    do {
        spin_lock(&p->list);
    } while (0);
    while (1) {
        if (!p->busy)
            break;
    }
    do {
        spin_lock(&p->lock);
    } while (0);
    do {
        spin_unlock(&p->lock);
    } while (0);
    do {
        spin_unlock(&p->list);
    } while (0);
    schedule();
}
