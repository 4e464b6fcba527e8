typedef unsigned long size_t;
void kfree(const void *); void *memcpy(void *, const void *, size_t);

struct item { struct item *next; char *name; int size; };

void drop_all(struct item *i)
{
    while (i) {
        kfree(i);
        i = i->next;                    /* wants: i is used after it was freed */
    }
}

static void drop(struct item *i)
{
    kfree(i->name);
}

void rename(struct item *i, char *to)
{
    drop(i);
    memcpy(to, i->name, 8);             /* wants: i->name is handed on after it was freed */
}

int last(struct item *i, int empty)
{
    if (empty)
        kfree(i->name);
    return i->name[0];                  /* wants: i->name is used after it was freed */
}
