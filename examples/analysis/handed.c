struct queue { char *head; };

char *make(int n)
{
    char *p = grab(n);
    if (n > 9)
        return 0;
    return p;
}

void store(struct queue *q, int n)
{
    char *p = grab(n);
    q->head = p;
}

void user(struct queue *q, int n)
{
    char *a = make(n), *b = grab(n);
    enqueue(q, b);
}
