struct node { struct node *next; char *text; };

void f(struct node *n)
{
    kfree(n->next->text);
    *n->next->text;
    kfree(n->next->next->text);
    *n->next->next->text;
}
