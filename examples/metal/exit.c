void die(char *text)
{
    puts(text);
    exit(1);
}

void number(int n)
{
    int *a = malloc(sizeof(int)), *b = malloc(sizeof(int));
    if (!a)
        die("no memory");
    *a = n;
    if (!b)
        puts("no memory");
    *b = n;
}
