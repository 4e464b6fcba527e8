#define _DEFAULT_SOURCE
#include <fcntl.h>
#include <unistd.h>

int jail(const char *folder)
{
    if (chroot(folder) != 0)
        return -1;
    return open("log", O_WRONLY);       /* wants: chroot without chdir("/") behind it: the working folder is outside */
}

int forgotten(const char *folder, int strict)
{
    if (chroot(folder) < 0)
        return -1;
    if (strict)
        return chdir("/");
    return 0;                           /* wants: chroot without chdir("/") on this path: the working folder is outside */
}
