void f(char *p, int done)
{
    if (done)
        kfree(p);
    else
        *p;
}
