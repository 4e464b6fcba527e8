typedef unsigned long size_t;
void *malloc(size_t); void *kzalloc(size_t, int); void log(const char *);

typedef struct { int key; } counter;
struct node { int key; struct node *next; };

struct node *make(int key)
{
    struct node *node = malloc(sizeof *node);
    node->key = key;                    /* wants: node is used before it is known that the allocation succeeded */
    return node;
}

int count(void)
{
    counter *c = (counter *)malloc(sizeof(counter));
    c->key = 0;                         /* wants: c is used before it is known that the allocation succeeded */
    return c->key;
}

static void *memory(size_t n)
{
    return kzalloc(n, 0);
}

int *table(size_t n)
{
    int *all;
    all = (int *)memory(n);
    if (all == ((void *)0)) {
        log("no memory");
        all[0] = 1;                     /* wants: all is null here */
    }
    return all;
}
