struct device { int lock; int users; };

int open(struct device *d)
{
    lock(&d->lock);
    if (d->users > 7)
        return -1;
    d->users++;
    unlock(&d->lock);
    return 0;
}

int poll(struct device *d)
{
    if (!trylock(&d->lock))
        return 0;
    d->users++;
    unlock(&d->lock);
    return 1;
}

void close(struct device *d)
{
    d->users--;
    unlock(&d->lock);
}
