typedef unsigned long size_t;
void *malloc(size_t); void *kzalloc(size_t, int); void keep(void *);

typedef struct { int key; } counter;
struct node { int key; struct node *next; };

struct node *make(int key)
{
    struct node *node;
    if (!(node = malloc(sizeof *node)))
        return 0;
    node->key = key;
    return node;
}

int count(int n)
{
    counter *c = (counter *)malloc(sizeof(counter)), *other;
    if (c == ((void *)0))
        return -1;
    c->key = n;
    keep(malloc(n));
    other = c;
    return other->key;
}

/* a macro of statements, and a loop that isn't left by its condition */
int *table(size_t n)
{
    int *all;
    while (1) {
        all = (int *)kzalloc(n, 0);
        if (__builtin_expect(!!(all), 1))
            break;
    }
    do {
        all[0] = 1;
    } while (0);
    return all;
}
