/* In front of the system's calls, by LD_PRELOAD: with FAILS=unlink no journal
 * can be removed, with FAILS=N the N-th fdatasync fails. */
#define _GNU_SOURCE

#include <errno.h>
#include <fcntl.h>
#include <stdlib.h>
#include <string.h>
#include <sys/syscall.h>
#include <unistd.h>

static const char *fails(void)
{
    const char *what = getenv("FAILS");

    return what == NULL ? "" : what;
}

int unlinkat(int directory, const char *path, int flags)
{
    const char *end = strrchr(path, '.');

    if (strcmp(fails(), "unlink") != 0 || end == NULL ||
        strcmp(end, ".journal") != 0 ||
        faccessat(directory, path, F_OK, 0) != 0)
        return (int)syscall(SYS_unlinkat, directory, path, flags);
    errno = EIO;
    return -1;
}

int fdatasync(int fd)
{
    static int calls;

    if (++calls != atoi(fails()))
        return fsync(fd);
    errno = EIO;
    return -1;
}
