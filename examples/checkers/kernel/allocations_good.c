typedef unsigned long size_t;
void *kzalloc(size_t, unsigned int); void *kmemdup(const void *, size_t, unsigned int); void *devm_kzalloc(void *, size_t, unsigned int);
void kfree(const void *);
struct port { int speed; struct port *next; };

int probe(void *device, struct port *other)
{
    struct port *p = kzalloc(sizeof(*p), (((unsigned int)0x400u) | ((unsigned int)0x800u))), *q, *m;
    if (!p)
        return -12;
    p->speed = 1;
    q = kmemdup(other, sizeof(*q), 0xcc0u);
    if (__builtin_expect(!!(!q), 0)) {
        kfree(p);
        return -12;
    }
    q->speed = 2;
    if (!(m = devm_kzalloc(device, sizeof(*m), 0xcc0u)))
        return -12;
    m->speed = 3;
    kfree(p);
    kfree(q);
    q = 0;
    kfree(q);
    return 0;
}

int warn(struct port *to)
{
    struct port *p = kzalloc(sizeof(*p), 0xcc0u);
    if (__builtin_expect(!!((!!(!p))), 0))
        return -12;
    p->speed = 1;
    to->next = p;
    return 0;
}

void drop_all(struct port *p)
{
    struct port *next;
    while (p) {
        next = p->next;
        kfree(p);
        p = next;
    }
}
