#include <stdarg.h>
#include <stdio.h>
#include <stdlib.h>

static void both(FILE *to, const char *format, va_list list)
{
    va_list copy;
    __builtin_va_copy(copy, list);
    vfprintf(to, format, copy);
    va_end(copy);
    vfprintf(stderr, format, list);
}

void say(const char *format, ...)
{
    va_list list;
    va_start(list, format);
    both(stdout, format, list);
    va_end(list);
}

void die(const char *format, ...)
{
    va_list list;
    va_start(list, format);
    vfprintf(stderr, format, list);
    exit(1);
}

int sum(int n, ...)
{
    va_list list;
    int all = 0;
    do {
        va_start(list, n);
    } while (0);
    while (1) {
        if (n-- == 0)
            break;
        all += va_arg(list, int);
    }
    va_end(list);
    return all;
}
