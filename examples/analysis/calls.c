struct node { struct node *next; char *text; };
char *spare;

void drop(struct node *x)
{
    kfree(x->text);
    kfree(spare);
}

void f(struct node *n, char *aside)
{
    kfree(aside);
    drop(n);
    *n->text;
    *spare;
    *aside;
}

void g(struct node *n, struct node *m, int c)
{
    if (c)
        drop(n);
    else
        *n->text;
    *m->text;
}
