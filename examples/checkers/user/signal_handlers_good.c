#include <signal.h>
#include <stdio.h>
#include <unistd.h>

static volatile sig_atomic_t stopped;

static void on_signal(int number)
{
    stopped = number;
    if (write(2, "stop\n", 5) != 5)
        _exit(1);
}

static void say(const char *text)
{
    do {
        printf("%s\n", text);
    } while (0);
}

/* A handler that the program calls too: what comes behind the call isn't in it. */
static void alarm_handler(int number)
{
    signal(SIGALRM, alarm_handler);
    alarm(number ? 1 : 2);
}

static void count(void)
{
    alarm_handler(0);
    printf("counts\n");
}

int main(void)
{
    signal(SIGTERM, on_signal);
    count();
    while (!stopped)
        say("running");
    return 0;
}
