#include <stddef.h>
#include <string.h>
#include <sys/mman.h>

struct table { int *cells; };

int first_cell(int f, size_t n)
{
    int *p, cell;
    if ((p = mmap(NULL, n, PROT_READ, MAP_PRIVATE, f, 0)) == MAP_FAILED)
        return -1;
    cell = p[0];
    munmap(p, n);
    return cell;
}

/* both tests */
int cautious(struct table *t, int f, size_t n)
{
    t->cells = mmap(NULL, n, PROT_READ, MAP_PRIVATE, f, 0);
    if (t->cells == NULL || t->cells == MAP_FAILED)
        return -1;
    return *t->cells;
}

void *anew(void *old, size_t n)
{
    munmap(old, n);
    old = mmap(NULL, n, PROT_WRITE, MAP_PRIVATE | MAP_ANONYMOUS, -1, 0);
    if (old != MAP_FAILED)
        memset(old, 0, n);
    return old;
}

void once(char *p, size_t n)
{
    do {
        munmap(p, n);
    } while (0);
}
