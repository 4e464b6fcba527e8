#include <fcntl.h>
#include <unistd.h>

int first_byte(const char *path, char *byte)
{
    int f = open(path, O_RDONLY);
    if (f < 0)
        return -1;
    if (read(f, byte, 1) != 1)
        return -1;                      /* wants: f isn't closed on this path */
    close(f);
    return 0;
}

void twice(const char *path, char *byte)
{
    int f = open(path, O_RDONLY);
    if (f == -1)
        return;
    close(f);
    read(f, byte, 1);                   /* wants: f is used after it was closed */
    if ((f = open(path, O_RDONLY)) < 0)
        return;
    close(f);
    close(f);                           /* wants: f is closed twice */
}

int copy(const char *from, const char *to)
{
    int in, out;
    if ((in = open(from, O_RDONLY)) < 0)
        return -1;
    if ((out = creat(to, 0600)) < 0)
        return -1;                      /* wants: in isn't closed on this path */
    close(in);
    close(out);
    return 0;
}

static int last_use(int f, char *byte)
{
    return read(f, byte, 1);
}

int handed_to_a_reader(const char *path, char *byte)
{
    int f = open(path, O_RDONLY), n;
    if (f < 0)
        return -1;
    n = last_use(f, byte);
    return n;                           /* wants: f isn't closed on this path */
}
