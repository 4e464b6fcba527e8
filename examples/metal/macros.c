typedef unsigned char Bool;

void f(void)
{
    cleanup(((Bool)1));
    cleanup(((Bool)0));
    signal(2, f);
}
