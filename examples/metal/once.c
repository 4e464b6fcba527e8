void macro(int *m)
{
    do { lock(m); } while (0);
    do { unlock(m); } while (0);
}

void serve(int *m, int *stopped)
{
    lock(m);
    while (1) {
        if (*stopped) {
            unlock(m);
            return;
        }
        step();
    }
}

int early(int *m, int n)
{
    do {
        lock(m);
        if (n)
            return -1;
        unlock(m);
    } while (0);
    return 0;
}
