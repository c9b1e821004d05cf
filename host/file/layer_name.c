/* The file layer: the directory entry of a file, beside which its journal
 * stands. It is asked for without following symbolic links: a file that was
 * moved, with a link left in its place, has another entry by now. */
#define _GNU_SOURCE /* for O_PATH and syncfs */

#include "layer.h"

#include <errno.h>
#include <fcntl.h>
#include <stdio.h>
#include <sys/stat.h>
#include <unistd.h>

#ifdef O_PATH /* needs no right to read it */
#define DIRECTORY_FLAGS (O_PATH | O_DIRECTORY | O_CLOEXEC)
#else
#define DIRECTORY_FLAGS (O_RDONLY | O_DIRECTORY | O_CLOEXEC)
#endif

int layer_open_directory(const char *path)
{
    return open(path, DIRECTORY_FLAGS);
}

/* One that may not be read cannot be flushed, and some file systems refuse
 * to: then all of the file system is. */
int layer_sync_names(int directory, int file)
{
    int fd = openat(directory, ".", O_RDONLY | O_DIRECTORY | O_CLOEXEC);
    int error = fd >= 0 && fsync(fd) == 0 ? 0 : errno;

    if (fd >= 0)
        close(fd);
    if (error != EACCES && error != EINVAL)
        return error;
#ifdef __linux__
    return syncfs(file) == 0 ? 0 : errno;
#else
    (void)file;
    sync();
    return 0;
#endif
}

int layer_is_entry(int directory, const char *name, int fd)
{
    struct stat ours, there;

    return fstat(fd, &ours) == 0 &&
           fstatat(directory, name, &there, AT_SYMLINK_NOFOLLOW) == 0 &&
           ours.st_dev == there.st_dev && ours.st_ino == there.st_ino;
}

uint32_t layer_replaced(bhtf_file *f)
{
    return layer_fail(f, BHTF_FILE_REPLACED, 0, "another program removed or "
                      "replaced the file while it was in use");
}

uint32_t layer_ask_name(bhtf_file *f)
{
    return layer_is_entry(f->directory, f->entry, f->fd) ? BHTF_ACCEPTED
                                                         : layer_replaced(f);
}

uint32_t layer_ask_names(bhtf_file *f)
{
    struct stat about;

    if (fstat(f->fd, &about) != 0)
        return layer_fail(f, BHTF_FILE_SYSTEM, errno, "cannot be examined");
    if (about.st_nlink <= 1)
        return BHTF_ACCEPTED;
    return layer_fail(f, BHTF_FILE_UNFIT, 0, "the file has %lu names (hard "
                      "links), and its journal could stand beside one of them "
                      "only; write to a copy", (unsigned long)about.st_nlink);
}

/* ---- new files ---- */

int layer_open_nameless(int directory, mode_t mode)
{
#ifdef O_TMPFILE
    int fd;

    if (access("/proc/self/fd", X_OK) == 0) { /* by which it gets its name */
        fd = openat(directory, ".", O_TMPFILE | O_RDWR | O_CLOEXEC, mode);
        if (fd >= 0 || errno == EACCES || errno == EROFS || errno == ENOSPC ||
            errno == EDQUOT || errno == EMFILE || errno == ENFILE)
            return fd;
    }
#else
    (void)directory;
    (void)mode;
#endif
    errno = EOPNOTSUPP;
    return -1;
}

/* One name in place of another that no file has; at no time does the file have
 * both, where the system can do that. */
static int rename_new(int directory, const char *draft, const char *name)
{
    struct stat about;

#ifdef RENAME_NOREPLACE
    if (renameat2(directory, draft, directory, name, RENAME_NOREPLACE) == 0)
        return 0;
    if (errno != EINVAL && errno != ENOSYS)
        return errno;
#endif
    if (fstatat(directory, name, &about, AT_SYMLINK_NOFOLLOW) == 0)
        return EEXIST;
    return renameat(directory, draft, directory, name) == 0 ? 0 : errno;
}

int layer_give_name(int directory, int fd, const char *draft, const char *name)
{
    char link[64];

    if (draft != NULL)
        return rename_new(directory, draft, name);
    snprintf(link, sizeof link, "/proc/self/fd/%d", fd);
    return linkat(AT_FDCWD, link, directory, name, AT_SYMLINK_FOLLOW) == 0
        ? 0 : errno;
}

/* ---- places ---- */

/* Places that were given and not written to are told as holes. */
int layer_has_no_holes(int fd, uint64_t length)
{
#ifdef SEEK_HOLE
    off_t hole = lseek(fd, 0, SEEK_HOLE);

    return hole >= 0 && (uint64_t)hole >= length;
#else
    (void)fd;
    (void)length;
    return 0;
#endif
}
