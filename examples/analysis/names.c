void spelled(char **a)
{
    kfree(*a);
    *a[0];
    **a;
}

void chain(char *p, char *q, char *r)
{
    kfree(p);
    q = r = p;
    *q;
    *r;
}

static void first(char *x, char *y)
{
    kfree(y);
}

static void second(char *x, char *y)
{
    kfree(x);
}

void passed_twice(char *p, char *q)
{
    first(p, p);
    *p;
    second(q, q);
    *q;
}
