#define _DEFAULT_SOURCE
#include <fcntl.h>
#include <stdlib.h>
#include <unistd.h>

static void enter(const char *folder)
{
    if (chroot(folder) == -1)
        exit(1);
}

int jail(const char *folder)
{
    enter(folder);
    if (chdir("/") != 0)
        return -1;
    return open("log", O_WRONLY);
}

/* the other order */
int from_inside(const char *folder)
{
    if (chdir(folder) != 0 || chroot(".") != 0)
        return -1;
    return open("log", O_WRONLY);
}
