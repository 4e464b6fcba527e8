#include <dirent.h>

int empty(const char *name)
{
    DIR *d = opendir(name);
    if (!d)
        return -1;
    while (readdir(d))
        return 0;                       /* wants: d isn't closed on this path */
    closedir(d);
    return 1;
}

void untested(const char *name)
{
    DIR *d = opendir(name);
    readdir(d);                         /* wants: d is used before it is known that it was opened */
    closedir(d);
}

void twice(const char *name)
{
    DIR *d;
    if ((d = opendir(name)) == 0)
        return;
    closedir(d);
    readdir(d);                         /* wants: d is used after it was closed */
    if ((d = opendir(name)) == 0)
        return;
    closedir(d);
    closedir(d);                        /* wants: d is closed twice */
}
