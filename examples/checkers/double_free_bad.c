typedef unsigned long size_t;
void *kmalloc(size_t, int); void *vmalloc(size_t); void kfree(const void *); void vfree(const void *);

struct item { struct item *next; char *name; };

static void drop(struct item *i)
{
    kfree(i->name);
    kfree(i);
}

void remove(struct item *i, int found)
{
    if (found)
        drop(i);
    kfree(i);                           /* wants: i is freed twice */
}

void rename(struct item *i)
{
    char *name = (char *)kmalloc(10, 0), *table;
    vfree(name);                        /* wants: name comes from kmalloc and is freed by vfree */
    table = vmalloc(4096);
    kfree(table);                       /* wants: table comes from vmalloc and is freed by kfree */
    drop(i);
    kfree(i->name);                     /* wants: i->name is freed twice */
}
