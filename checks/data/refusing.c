/* Stands before the C library and refuses one call of a program: the call of the kind REFUSE with the number REFUSE_AT, from 1. The file
   REFUSED is made when that call comes. checks/refused_memory says what each kind means. */
#include <errno.h>
#include <fcntl.h>
#include <stdlib.h>
#include <string.h>
#include <sys/syscall.h>
#include <sys/uio.h>
#include <unistd.h>

extern void *__libc_malloc(size_t);
extern void *__libc_realloc(void *, size_t);

static unsigned long calls;

/* Whether this call of a kind is to be refused. */
static int is_refused(const char *kind)
{
    const char *wanted = getenv("REFUSE"), *at = getenv("REFUSE_AT"), *mark = getenv("REFUSED");
    size_t length = strlen(kind);
    if (!wanted || !at || !mark || strncmp(wanted, kind, length) || (wanted[length] && wanted[length] != '-'))
        return 0;
    unsigned long number = strtoul(at, 0, 10);
    calls++;
    if (calls != number && !(wanted[length] && calls > number))
        return 0;
    if (calls == number)
        syscall(SYS_close, syscall(SYS_openat, AT_FDCWD, mark, O_WRONLY | O_CREAT, 0600));
    return 1;
}

void *malloc(size_t size)
{
    if (is_refused("memory")) {
        errno = ENOMEM;
        return 0;
    }
    return __libc_malloc(size);
}

void *realloc(void *old, size_t size)
{
    if (is_refused("memory")) {
        errno = ENOMEM;
        return 0;
    }
    return __libc_realloc(old, size);
}

ssize_t read(int file, void *into, size_t size)
{
    if (is_refused("read")) {
        errno = EIO;
        return -1;
    }
    if (size > 1 && is_refused("short"))
        size = 1;
    return syscall(SYS_read, file, into, size);
}

ssize_t write(int file, const void *from, size_t size)
{
    if (is_refused("write")) {
        errno = EIO;
        return -1;
    }
    if (size > 1 && is_refused("short"))
        size = 1;
    return syscall(SYS_write, file, from, size);
}

ssize_t writev(int file, const struct iovec *parts, int count)
{
    if (is_refused("write")) {
        errno = EIO;
        return -1;
    }
    if (count > 0 && is_refused("short"))
        return syscall(SYS_write, file, parts[0].iov_base, parts[0].iov_len ? 1 : 0);
    return syscall(SYS_writev, file, parts, count);
}
