void f(char *p, int c)
{
    if (c)
        kfree(p);
    *p;
}
