#include <stdio.h>

int letters(FILE *f)
{
    char c;
    int n = 0;
    while ((c = fgetc(f)) != EOF)       /* wants: c is a char and can't hold EOF */
        n++;
    return n;
}

int lines(void)
{
    unsigned char c = getchar();        /* wants: c is a char and can't hold EOF */
    return c == '\n';
}
