struct device { int lock; };
struct device *find(int);

void f(struct device *d, int n)
{
    lock(&d->lock);
    if (n)
        d = find(n);
    unlock(&d->lock);
}
