typedef struct file FILE;
FILE *fopen(const char *, const char *); int fclose(FILE *); int fgetc(FILE *); int fputs(const char *, FILE *);

struct log { FILE *to; };
extern FILE *standard;

/* what is returned or kept isn't lost */
FILE *log_of(const char *name)
{
    FILE *log = fopen(name, "a");
    if (log && fputs("begun\n", log) < 0) {
        fclose(log);
        return 0;
    }
    return log;
}

void keep(struct log *log, const char *name)
{
    FILE *to = fopen(name, "a");
    log->to = to;
}

/* a second name closes it */
void second_name(const char *name)
{
    FILE *file = fopen(name, "r"), *other;
    if (!file)
        return;
    other = file;
    fclose(other);
}

int or_standard(const char *name)
{
    FILE *file = name ? fopen(name, "r") : standard;
    int letter;
    if (!file)
        return -1;
    letter = fgetc(file);
    if (file != standard)
        fclose(file);
    return letter;
}

/* a macro of statements, and a loop that isn't left by its condition */
int once(const char *name)
{
    FILE *file;
    while (1) {
        file = fopen(name, "r");
        if (file)
            break;
    }
    do {
        fclose(file);
    } while (0);
    return 0;
}
