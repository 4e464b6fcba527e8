void pause(void)
{
    cli();
    wait();
}

int step(int n)
{
    pause();
    if (n < 0)
        return -1;
    sti();
    return n;
}
