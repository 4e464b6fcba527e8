#include <stdio.h>
#include <stdlib.h>
#include <syslog.h>

char *gettext(const char *);
static const char *rows[] = { "one\n", "more\n" };
static const char usage[] = "usage: say NAME\n";

/* what is handed in and what stands in a table is mostly a literal */
void say(char *name, const char *row, int n)
{
    static const char none[] = "none\n";
    const char *text = "nobody\n", *chosen = n == 1 ? "once\n" : "more\n", *own = rows[n], *told;
    char line[80] = "a line\n";
    printf("%s", name);
    printf("nobody\n");
    printf(("%d\n"), n);
    printf(text);
    printf(chosen);
    printf(own);
    printf(usage);
    printf(none);
    printf(line);
    printf(row);
    told = gettext("nobody\n");
    printf(told);
    printf(gettext("nobody\n"));
    printf(n == 1 ? "once\n" : "more\n");
    if (n > 3)
        text = row;
    fprintf(stderr, text);
    fprintf(stderr, "%s %d", name, n);
    fprintf(stderr, row, name, n);
    syslog(LOG_INFO, "%s", name);
}
