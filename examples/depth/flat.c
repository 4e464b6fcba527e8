struct port { char *name; char *buffer; int size; };

static void clear(struct port *p)
{
    free(p->buffer);
    p->buffer = 0;
    p->size = 0;
}

int rename(struct port *p, char *name)
{
    free(p->name);
    p->name = copy(name);
    if (!p->name)
        return -1;
    return 0;
}

int grow(struct port *p, int size)
{
    char *larger = malloc(size);
    if (!larger) {
        clear(p);
        return -1;
    }
    move(larger, p->buffer, p->size);
    free(p->buffer);
    p->buffer = larger;
    p->size = size;
    return 0;
}

void close(struct port *p)
{
    clear(p);
    free(p->name);
    free(p);
}
