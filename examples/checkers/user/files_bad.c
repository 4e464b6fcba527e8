#include <stdio.h>

int first(const char *name)
{
    FILE *f = fopen(name, "r");
    int letter;
    if (!f)
        return -1;
    letter = fgetc(f);
    if (letter < 0)
        return -1;                      /* wants: f isn't closed on this path */
    fclose(f);
    return letter;
}

void copy(const char *from, const char *to, char *line)
{
    FILE *in, *out;
    in = fopen(from, "r");
    if (in == NULL)
        return;
    if ((out = fopen(to, "w")) == NULL)
        return;                         /* wants: in isn't closed on this path */
    fgets(line, 80, in);
    fputs(line, out);
    fclose(in);
    fclose(out);
    fputs(line, out);                   /* wants: out is used after it was closed */
    fclose(in);                         /* wants: in is closed twice */
}

void untested(const char *name)
{
    FILE *f = fopen(name, "w");
    fprintf(f, "begun\n");              /* wants: f is used before it is known that it was opened */
    fclose(f);
}

int lines(const char *command, char *line)
{
    FILE *f = popen(command, "r");
    int n = 0;
    if (!f)
        return -1;
    while (fgets(line, 80, f))
        n++;
    fclose(f);                          /* wants: f was opened by popen: pclose closes it */
    return n;
}

void wrong_end(const char *name)
{
    FILE *f = fopen(name, "r");
    if (f)
        pclose(f);                      /* wants: f was not opened by popen */
}
