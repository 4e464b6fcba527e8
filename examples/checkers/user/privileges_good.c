#define _DEFAULT_SOURCE
#include <sys/types.h>
#include <grp.h>
#include <stdlib.h>
#include <unistd.h>

void serve(void);
void complain(const char *);

static int drop(gid_t group, uid_t user)
{
    if (setgroups(0, 0) != 0 || setgid(group) == -1)
        return -1;
    return setuid(user);
}

void run(gid_t group, uid_t user)
{
    int result;
    if (drop(group, user) < 0)
        exit(1);
    result = seteuid(user);
    if (result)
        complain("seteuid");
    (void)setegid(group);
    serve();
}
