void f(char *p, int done)
{
    if (done) {
        kfree(p);
        p = 0;
    }
    if (!done)
        *p;
}
