#include <stdio.h>
#include <stdlib.h>

struct buffer { char *bytes; size_t size; };

int grow(struct buffer *b)
{
    char *bytes = realloc(b->bytes, b->size * 2);
    if (!bytes)
        return -1;
    b->bytes = bytes;
    b->size *= 2;
    return 0;
}

/* where the process ends, nothing is lost */
static void no_memory(void)
{
    fputs("no memory\n", stderr);
    exit(1);
}

char *longer(char *text, size_t n)
{
    text = realloc(text, n);
    if (text == NULL)
        no_memory();
    return text;
}

int *cells(int *old, size_t n)
{
    do {
        old = realloc(old, n * sizeof(int));
        if (old)
            old[n - 1] = 0;
        else
            abort();
    } while (0);
    return old;
}
