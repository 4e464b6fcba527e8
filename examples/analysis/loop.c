struct node { struct node *next; };

void drop_all(struct node *n)
{
    while (n) {
        kfree(n);
        n = n->next;
    }
}
