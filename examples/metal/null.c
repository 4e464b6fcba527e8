struct s { int n; struct s *next; };

void use(int n)
{
    struct s *a = malloc(n), *b = malloc(n), *c;
    a->n = 1;
    if (!b)
        b->n = 2;
    if ((c = malloc(n)) == 0)
        return;
    c->n = 3;
}
