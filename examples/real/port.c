#include "port.h"

int set_speed(struct port *p, int speed)
{
    unsigned long flags;

    spin_lock_irqsave(&p->lock, flags);
    if (p->state < 0)
        return -1;
    p->speed = min(speed, p->limit);
    spin_unlock_irqrestore(&p->lock, flags);
    return 0;
}

int step(struct port *p)
{
    static void *const table[] = { &&idle, &&busy };

    goto *table[p->state];
idle:
    return 0;
busy:
    return p->speed;
}
