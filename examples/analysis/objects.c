struct node { struct node *next; char *text; };

void f(struct node *n, char **a, int i)
{
    kfree(n->text);
    kfree(a[i]);
    *n->next->text;
    *n->text;
    *a[i];
    kfree(n->next + 1);
    *(n->next + 1);
}
