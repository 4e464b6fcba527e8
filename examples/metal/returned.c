struct queue { char *head; };

char *make(int n)
{
    char *p = grab(n);
    if (!p)
        return 0;
    if (n > 9)
        return 0;
    fill(n, p);
    return p;
}

void store(struct queue *q, int n)
{
    char *p = grab(n);
    q->head = p;
}

void other_name(int n)
{
    char *p = grab(n), *same;
    same = p;
    drop(same);
}

int length(int n)
{
    char *p = grab(n);
    fill(n, p);
    return p[0];
}
