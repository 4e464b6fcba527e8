void f(char *name, int n)
{
    printf(name, n, n + 1);
    printf("%s %d", name, n);
    trace("", n);
    log_flush("");
}
