#include <stdio.h>

int letters(FILE *f, char *into)
{
    int c, n = 0;
    while ((c = fgetc(f)) != EOF)
        into[n++] = (char)c;
    return n;
}
