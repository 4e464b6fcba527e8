void f(char *p, int done)
{
    if (done)
        kfree(p);
    if (!done)
        *p;
}
