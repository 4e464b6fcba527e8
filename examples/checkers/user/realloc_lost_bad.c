#include <stdlib.h>

struct buffer { char *bytes; size_t size; };

int grow(struct buffer *b)
{
    b->bytes = realloc(b->bytes, b->size * 2);
    if (!b->bytes)
        return -1;                      /* wants: what b->bytes had is lost: realloc failed on this path */
    b->size *= 2;
    return 0;
}

char *longer(char *text, size_t n)
{
    if ((text = (char *)realloc(text, n)) == NULL)
        return NULL;                    /* wants: what text had is lost: realloc failed on this path */
    return text;
}

void untested(int *cells, size_t n)
{
    cells = realloc(cells, n * sizeof(int));
    cells[n - 1] = 0;                   /* wants: cells is used before it is known that realloc succeeded */
}
