#include <stdio.h>
#include <stdlib.h>
#include <string.h>
#include <syslog.h>

char *name_of(int);

void say(int n, char *buffer, size_t size)
{
    char *name = name_of(n), *same, line[80], mark[8] = "> ";
    printf(name);                       /* wants: name is printed as a format: write "%s" before it */
    fprintf(stderr, name);              /* wants: name is printed as a format: write "%s" before it */
    snprintf(buffer, size, name);       /* wants: name is printed as a format: write "%s" before it */
    same = name;
    dprintf(2, same);                   /* wants: same is printed as a format: write "%s" before it */
    if (fgets(line, sizeof line, stdin))
        syslog(LOG_INFO, line);         /* wants: line is printed as a format: write "%s" before it */
    strcat(mark, buffer);
    sprintf(buffer, mark);              /* wants: mark is printed as a format: write "%s" before it */
}

int main(int argc, char **argv)
{
    printf(argv[argc - 1]);             /* wants: a text from outside is printed as a format: write "%s" before it */
    fprintf(stderr, getenv("HOME"));    /* wants: a text from outside is printed as a format: write "%s" before it */
    return 0;
}
