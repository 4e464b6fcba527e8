#define _DEFAULT_SOURCE
#include <sys/types.h>
#include <grp.h>
#include <unistd.h>

void serve(void);

static void drop(gid_t group, uid_t user)
{
    setgid(group);
    setuid(user);               /* wants: rights were given up before this, and nobody looked whether that succeeded */
}

void run(gid_t group, uid_t user)
{
    drop(group, user);
    serve();                    /* wants: rights were given up before this, and nobody looked whether that succeeded */
}

int later(gid_t group)
{
    int members = 0;
    setgroups(0, 0);
    members = 1;                /* wants: rights were given up before this, and nobody looked whether that succeeded */
    if (setgid(group))
        return -1;
    return members;
}
