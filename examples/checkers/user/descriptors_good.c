#include <fcntl.h>
#include <stdlib.h>
#include <sys/socket.h>
#include <unistd.h>

struct connection { int descriptor; };
void serve(int descriptor);

/* what is returned, kept or handed on isn't lost */
int listener(int port)
{
    int f = socket(AF_INET, SOCK_STREAM, 0);
    if (f < 0)
        return -1;
    if (listen(f, port) < 0) {
        close(f);
        return -1;
    }
    return f;
}

void keep(struct connection *c, const char *path)
{
    int f = open(path, O_RDONLY);
    if (f == -1)
        exit(1);
    fcntl(f, F_SETFD, FD_CLOEXEC);
    c->descriptor = f;
}

void hand_on(int door)
{
    int f;
    while ((f = accept(door, 0, 0)) >= 0)
        serve(f);
}

/* a second name closes it */
void second_name(const char *path)
{
    int f = open(path, O_RDONLY), g;
    if (f < 0)
        return;
    g = f;
    close(g);
}

int opened_where_it_is_positive(const char *path, char *byte)
{
    int f = open(path, O_RDONLY), n;
    if (f >= 0) {
        n = read(f, byte, 1);
        close(f);
        return n;
    }
    return -1;
}

void onto_standard_input(const char *path)
{
    int f = open(path, O_RDONLY);
    if (f < 0)
        return;
    dup2(f, 0);
    if (f > 2)
        close(f);
}

/* a loop that isn't left by its condition, and one that is run once */
void once(const char *path)
{
    int f = open(path, O_RDONLY);
    if (f < 0)
        return;
    do {
        close(f);
    } while (0);
    while (1) {
        f = open(path, O_RDONLY);
        if (f >= 0)
            break;
        sleep(1);
    }
    close(f);
}

/* the process ends with main */
int main(int argc, char **argv)
{
    int f = open(argv[1], O_RDONLY);
    char byte;
    return f < 0 || read(f, &byte, 1) != 1;
}
