#include <dirent.h>
#include <stdlib.h>

struct walk { DIR *at; };

/* what is returned or kept isn't lost */
DIR *folder(const char *name)
{
    DIR *d = opendir(name);
    if (d == NULL)
        return opendir(".");
    rewinddir(d);
    return d;
}

void keep(struct walk *walk, const char *name)
{
    DIR *d = opendir(name);
    if (!d)
        abort();
    walk->at = d;
}

/* a second name closes it */
void second_name(const char *name)
{
    DIR *d = opendir(name), *e;
    if (!d)
        return;
    e = d;
    closedir(e);
}

int members(const char *name)
{
    DIR *d = opendir(name);
    int n = 0;
    if (!d)
        return -1;
    while (1) {
        if (!readdir(d))
            break;
        n++;
    }
    do {
        closedir(d);
    } while (0);
    return n;
}
