struct node { struct node *next; char *text; };

void copied(struct node *n, struct node *m)
{
    kfree(n->text);
    m = n;
    *m->text;
}

void other_name(char *p, char *q)
{
    q = p;
    kfree(p);
    *q;
}

void forgotten(char *p, char **a, int i)
{
    kfree(p);
    p = p + 1;
    *p;
    kfree(a[i]);
    i++;
    *a[i];
}

void walk(struct node *n)
{
    kfree(n->next);
    n = n->next;
    *n;
}
