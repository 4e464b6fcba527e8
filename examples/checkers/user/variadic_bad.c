#include <stdarg.h>
#include <stdio.h>

void early(const char *format, ...)
{
    va_list list;
    va_start(list, format);
    if (!format[0])
        return;                         /* wants: list is begun and not ended */
    vprintf(format, list);
    va_end(list);
}

void twice(char *buffer, size_t size, const char *format, ...)
{
    va_list list;
    va_start(list, format);
    if (vsnprintf(buffer, size, format, list) < 0)
        return;                         /* wants: list is begun and not ended */
    vfprintf(stderr, format, list);     /* wants: list was read already: copy it by va_copy before */
    va_end(list);
}

int sum(int n, ...)
{
    va_list list;
    int all;
    va_start(list, n);
    va_start(list, n);                  /* wants: list is begun twice */
    all = va_arg(list, int);
    va_end(list);
    all += va_arg(list, int);           /* wants: list is read after it was ended */
    va_start(list, n);
    va_end(list);
    va_end(list);                       /* wants: list is ended twice */
    return all;
}
