struct item { char *name; };

void overwrite(struct item *old, struct item *fresh)
{
    free(old->name);
    memcpy(old, fresh, sizeof(struct item));
}

void use(struct item *item, struct item *fresh)
{
    overwrite(item, fresh);
    free(item->name);
}
