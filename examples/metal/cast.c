typedef struct { int n; } counter;

void use(int n)
{
    counter *a = (counter *)malloc(sizeof(counter)), *b;
    keep((char *)malloc(n));
    b = 0;
    if (n > 9)
        return;
    free(a);
}
