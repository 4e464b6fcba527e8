typedef unsigned long size_t;
void *kzalloc(size_t, unsigned int); void *kmemdup(const void *, size_t, unsigned int); void *devm_kzalloc(void *, size_t, unsigned int);
void *kmem_cache_alloc(void *, unsigned int); void kmem_cache_free(void *, void *);
void kfree(const void *); void kvfree(const void *); void *memcpy(void *, const void *, size_t);
struct port { int speed; struct port *next; };

int probe(void *device, struct port *other)
{
    struct port *p = kzalloc(sizeof(*p), (((unsigned int)0x400u) | ((unsigned int)0x800u)));
    struct port *q = kmemdup(other, sizeof(*q), 0xcc0u), *m = devm_kzalloc(device, sizeof(*m), 0xcc0u);
    p->speed = 1;                               /* wants: p is used before it is known that the allocation succeeded */
    if (__builtin_expect(!!(!q), 0))
        return q->speed;                        /* wants: q is null here */
    if (!m && m->speed)                         /* wants: m is null here */
        return -12;
    return 0;
}

int fill(struct port *from)
{
    struct port *p = kzalloc(sizeof(*p), 0xcc0u), *q = kzalloc(sizeof(*q), 0xcc0u);
    memcpy(p, from, sizeof(*p));                /* wants: p is used before it is known that the allocation succeeded */
    if (__builtin_expect(!!((!!(!q))), 0))
        return q->speed;                        /* wants: q is null here */
    return 0;
}

void drop(struct port *p, struct port *q, void *cache, struct port *to)
{
    kfree(p->next);
    kfree(p->next);                             /* wants: p->next is freed twice */
    kfree(q);
    q->speed = 0;                               /* wants: q is used after it was freed */
    kmem_cache_free(cache, to);
    memcpy(to, q, sizeof(*q));                  /* wants: to is handed on after it was freed */
}
