#include <stdio.h>
#include <stdlib.h>

struct log { FILE *to; };
void take_over(FILE *f);

/* what is returned, kept or handed on isn't lost */
FILE *open_log(const char *name)
{
    FILE *f = fopen(name, "a");
    if (!f)
        return NULL;
    if (fputs("begun\n", f) < 0) {
        fclose(f);
        return NULL;
    }
    return f;
}

void keep(struct log *log, const char *name)
{
    FILE *f = fopen(name, "a");
    if (f == NULL) {
        perror(name);
        exit(1);
    }
    log->to = f;
}

void hand_on(const char *name)
{
    FILE *f = fopen(name, "r");
    if (f)
        take_over(f);
}

/* a second name closes it */
void second_name(const char *name)
{
    FILE *f = fopen(name, "r"), *g;
    if (!f)
        return;
    g = f;
    fclose(g);
}

int or_standard_input(const char *name, char *line)
{
    FILE *f = name ? NULL : stdin;
    int n = 0;
    if (name && (f = fopen(name, "r")) == NULL)
        return -1;
    while (fgets(line, 80, f))
        n++;
    if (f != stdin)
        fclose(f);
    return n;
}

int lines(const char *command, char *line)
{
    FILE *f = popen(command, "r");
    int n = 0;
    if (!f)
        return -1;
    while (fgets(line, 80, f))
        n++;
    return pclose(f) ? -1 : n;
}

/* a loop that isn't left by its condition, and one that is run once */
void once(const char *name)
{
    FILE *f = fopen(name, "r");
    if (!f)
        return;
    do {
        fclose(f);
    } while (0);
    while (1) {
        f = fopen(name, "r");
        if (f)
            break;
    }
    fclose(f);
}

/* the process ends with main */
int main(int argc, char **argv)
{
    FILE *f = fopen(argv[1], "r");
    return f == NULL || fgetc(f) == EOF;
}
