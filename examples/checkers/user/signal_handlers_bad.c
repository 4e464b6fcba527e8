#include <signal.h>
#include <stdio.h>
#include <stdlib.h>

static char *last;

static void tell(int number)
{
    printf("signal %d\n", number);      /* wants: printf isn't safe in a handler of a signal */
}

static void on_signal(int number)
{
    tell(number);
    free(last);                         /* wants: free isn't safe in a handler of a signal */
    exit(1);                            /* wants: exit isn't safe in a handler of a signal */
}

void watch(void)
{
    signal(SIGTERM, on_signal);
}
