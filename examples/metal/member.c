struct hooks { void (*deallocate)(void *); };
struct buffer { char *text; struct hooks hooks; };

void drop(struct hooks *hooks, struct buffer *b, char *p, char *q)
{
    hooks->deallocate(p);
    b->hooks.deallocate(b->text);
    (*hooks->deallocate)(q);
    *p;
    *b->text;
    *q;
}
