struct spinlock { int raw; };
void spin_lock(struct spinlock *); void spin_unlock(struct spinlock *); void msleep(int); void schedule(void);

struct port { struct spinlock lock, list; int busy; };

static void wait_for(struct port *p)
{
    while (p->busy)
        msleep(1);                      /* wants: a function that may sleep is called under a spin lock */
}

void close(struct port *p)
{
    spin_lock(&p->lock);
    wait_for(p);
    spin_unlock(&p->lock);
}

void move(struct port *p)
{
    spin_lock(&p->list);
    spin_lock(&p->lock);
    schedule();                         /* wants: a function that may sleep is called under two spin locks */
    spin_unlock(&p->lock);
    spin_unlock(&p->list);
}
