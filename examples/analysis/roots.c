void helper(char *p)
{
    *p;
}

void caller(char *p)
{
    kfree(p);
    helper(p);
}

void ping(char *p)
{
    kfree(p);
    pong(p);
}

void pong(char *q)
{
    kfree(q);
    ping(q);
}
