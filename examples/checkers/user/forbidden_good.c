#define _XOPEN_SOURCE 600
#include <stdio.h>
#include <stdlib.h>
#include <string.h>
#include <unistd.h>

struct parser { int (*gets)(char *); };

int all(char *buffer, size_t size, char *name, char *gets)
{
    if (!fgets(buffer, (int)size, stdin) || !getcwd(buffer, size))
        return -1;
    snprintf(buffer, size, "%s%c", name, gets[0]);
    return mkstemp(name);
}
