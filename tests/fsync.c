/* Loaded in front of the C library: an fsync and an fdatasync that say what
 * they were called for, or fail when FSYNC_FAILS is set. */
#include <errno.h>
#include <stdio.h>
#include <stdlib.h>
#include <sys/stat.h>
#include <unistd.h>

int fsync(int fd)
{
    struct stat about;

    if (getenv("FSYNC_FAILS") != NULL) {
        errno = EIO;
        return -1;
    }
    if (fstat(fd, &about) != 0)
        return -1;
    fprintf(stderr, "fsync of a %s\n",
            S_ISDIR(about.st_mode) ? "directory" : "file");
    return 0;
}

int fdatasync(int fd)
{
    return fsync(fd);
}
