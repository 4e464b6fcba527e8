typedef unsigned long size_t;
void *kmalloc(size_t, int); void *vmalloc(size_t); void kfree(const void *); void vfree(const void *); void kvfree(const void *);

struct item { struct item *next; char *name; };

void clear(struct item *i)
{
    kfree(i->name);
    i->name = 0;
    kfree(i->name);
}

void drop_all(struct item *i)
{
    struct item *next;
    while (i) {
        next = i->next;
        kfree(i);
        i = next;
    }
}

static char *big(size_t n)
{
    return (char *)vmalloc(n);
}

void either(size_t n)
{
    char *small = (char *)kmalloc(n, 0), *large = big(n);
    kvfree(large);
    kfree(small);
}

/* a macro of statements, and a loop that isn't left by its condition */
void once(char *p, char *q)
{
    do {
        kfree(p);
    } while (0);
    while (1) {
        if (q)
            break;
        q = kmalloc(1, 0);
    }
    kfree(q);
}
