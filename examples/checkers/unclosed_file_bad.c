typedef struct file FILE;
FILE *fopen(const char *, const char *); int fclose(FILE *); int fgetc(FILE *); int fputc(int, FILE *); int fputs(const char *, FILE *);

int first(const char *name)
{
    FILE *file = fopen(name, "r");
    int letter;
    if (!file)
        return -1;
    letter = fgetc(file);
    if (letter < 0)
        return -1;                      /* wants: file is not closed */
    fclose(file);
    return letter;
}

FILE *log_of(const char *name)
{
    FILE *log = fopen(name, "a");
    if (log && fputs("begun\n", log) < 0)
        return 0;                       /* wants: log is not closed */
    return log;
}

int copy(const char *from, const char *to)
{
    FILE *in = fopen(from, "r"), *out;
    if (!in)
        return -1;
    if (!(out = fopen(to, "w")))
        return -1;                      /* wants: in is not closed */
    fputc(fgetc(in), out);
    fclose(in);
    fclose(out);
    fclose(in);                         /* wants: in is closed twice */
    return 0;
}
