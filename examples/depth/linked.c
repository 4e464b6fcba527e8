struct item { struct item *next; struct item *previous; struct item *child; char *name; };

static void join(struct item *first, struct item *second)
{
    first->next = second;
    second->previous = first;
}

void drop(struct item *item)
{
    struct item *next;
    while (item) {
        next = item->next;
        if (item->child)
            drop(item->child);
        free(item->name);
        free(item);
        item = next;
    }
}

void add(struct item *list, struct item *item)
{
    struct item *child = list->child;
    if (!child) {
        list->child = item;
        item->previous = item;
        item->next = 0;
    } else if (child->previous) {
        join(child->previous, item);
        list->child->previous = item;
    }
}

struct item *detach(struct item *list, struct item *item)
{
    if (item != list->child)
        item->previous->next = item->next;
    if (item->next)
        item->next->previous = item->previous;
    if (item == list->child)
        list->child = item->next;
    else if (!item->next)
        list->child->previous = item->previous;
    item->previous = 0;
    item->next = 0;
    return item;
}

void replace(struct item *list, struct item *item, struct item *other)
{
    other->next = item->next;
    other->previous = item->previous;
    if (other->next)
        other->next->previous = other;
    if (list->child == item)
        list->child = other;
    else if (other->previous)
        other->previous->next = other;
    item->next = 0;
    item->previous = 0;
    drop(item);
}
