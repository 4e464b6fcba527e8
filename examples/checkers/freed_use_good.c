typedef unsigned long size_t;
void kfree(const void *); void *memcpy(void *, const void *, size_t);

struct item { struct item *next; char *name; int size; };

void drop_all(struct item *i)
{
    struct item *next;
    for (; i; i = next) {
        next = i->next;
        kfree(i->name);
        kfree(i);
    }
}

int rename(struct item *i, char *name)
{
    kfree(i->name);
    i->name = name;
    return i->name[0];
}

/* a macro of statements that is run once */
void once(struct item *i)
{
    do {
        i->size--;
        kfree(i->name);
    } while (0);
    do {
        i->size--;
        kfree(i);
    } while (0);
}
