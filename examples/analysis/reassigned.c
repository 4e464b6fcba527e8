char *other(void);

void replace(char *q)
{
    kfree(q);
    q = other();
}

void f(char *p)
{
    replace(p);
    *p;
}
