#include <stddef.h>
#include <string.h>
#include <sys/mman.h>

struct table { int *cells; };

int first_cell(int f, size_t n)
{
    int *p = mmap(NULL, n, PROT_READ, MAP_PRIVATE, f, 0);
    if (p == NULL)
        return -1;
    return p[0];                        /* wants: p comes from mmap and was compared with null, not with MAP_FAILED */
}

void untested(int f, size_t n)
{
    char *p = mmap(NULL, n, PROT_WRITE, MAP_SHARED, f, 0);
    memset(p, 0, n);                    /* wants: p is used before it is known that mmap succeeded */
    munmap(p, n);
}

int on_the_wrong_side(struct table *t, int f, size_t n)
{
    t->cells = mmap(NULL, n, PROT_READ, MAP_PRIVATE, f, 0);
    if (t->cells == MAP_FAILED)
        return *t->cells;               /* wants: t->cells is MAP_FAILED here */
    return 0;
}

int behind_the_end(char *p, char *q, size_t n)
{
    munmap(p, n);
    munmap(p, n);                       /* wants: p is unmapped twice */
    munmap(q, n);
    return q[0];                        /* wants: q is used after it was unmapped */
}
