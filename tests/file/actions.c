/* In front of the system's calls, by LD_PRELOAD: notes what is done to a file
 * and to its journal, a letter for each, in the file that ACTIONS_NOTED names.
 *
 *   c  head or content is written to the journal, in front of the mark's page
 *   b  the base is, in the mark's page
 *   M  the mark           m  mark 0
 *   j  the journal is flushed    i  the file    d  a directory
 *   s  the file's bytes are others than at the letter before: they are written
 *      through a mapping, and seen at the next call
 *   ?  anything else
 *
 * ACTIONS_FILE names the file. Behind letter ACTIONS_END the process ends as
 * KILL ends it; flush number ACTIONS_UNSEEN is done and not noted; flush number
 * ACTIONS_FAILS fails.
 */
#define _GNU_SOURCE

#include <errno.h>
#include <fcntl.h>
#include <signal.h>
#include <stdlib.h>
#include <string.h>
#include <sys/stat.h>
#include <sys/syscall.h>
#include <unistd.h>

#define PAGE 4096
#define LONGEST (1 << 20)

static int number_of(const char *name)
{
    const char *value = getenv(name);

    return value == NULL ? 0 : atoi(value);
}

static void note(char letter)
{
    static int noted = -1, letters;
    const char *path = getenv("ACTIONS_NOTED");

    if (noted < 0 && path != NULL)
        noted = open(path, O_WRONLY | O_CREAT | O_APPEND | O_CLOEXEC, 0600);
    if (noted < 0 || write(noted, &letter, 1) != 1)
        _exit(99);
    if (++letters == number_of("ACTIONS_END"))
        kill(getpid(), SIGKILL);
}

/* Notes stretches, if there were some. */
static void look(void)
{
    static unsigned char known[LONGEST], now[LONGEST];
    static ssize_t length = -1;
    int fd = open(getenv("ACTIONS_FILE"), O_RDONLY | O_CLOEXEC);
    ssize_t is = fd < 0 ? -1 : read(fd, now, sizeof now);

    if (fd >= 0)
        close(fd);
    if (is < 0)
        return;
    if (length >= 0 && (length != is || memcmp(known, now, (size_t)is) != 0))
        note('s');
    memcpy(known, now, (size_t)is);
    length = is;
}

/* What a descriptor leads to: 'd', 'i', or 'j' for what is neither. */
static char kind_of(int fd)
{
    struct stat about, file;

    if (fstat(fd, &about) != 0)
        return '?';
    if (S_ISDIR(about.st_mode))
        return 'd';
    return stat(getenv("ACTIONS_FILE"), &file) == 0 &&
           file.st_dev == about.st_dev && file.st_ino == about.st_ino
        ? 'i' : 'j';
}

static int flushed(int fd, long call)
{
    static int flushes;
    int done;

    if (++flushes == number_of("ACTIONS_FAILS")) {
        errno = EIO;
        return -1;
    }
    done = (int)syscall(call, fd);
    look();
    if (done == 0 && flushes != number_of("ACTIONS_UNSEEN"))
        note(kind_of(fd));
    return done;
}

int fdatasync(int fd)
{
    return flushed(fd, SYS_fdatasync);
}

int fsync(int fd)
{
    return flushed(fd, SYS_fsync);
}

/* A write to the journal, whose last byte is the mark. */
static char write_to(int fd, const void *bytes, size_t length, off_t at)
{
    struct stat about;

    if (kind_of(fd) != 'j' || fstat(fd, &about) != 0)
        return '?';
    if (length == 1 && at == about.st_size - 1)
        return *(const unsigned char *)bytes == 0xA5 ? 'M'
             : *(const unsigned char *)bytes == 0 ? 'm' : '?';
    if (at + (off_t)length <= about.st_size - PAGE)
        return 'c';
    return at >= about.st_size - PAGE && at + (off_t)length < about.st_size
        ? 'b' : '?';
}

ssize_t pwrite(int fd, const void *bytes, size_t length, off_t at)
{
    const ssize_t done = syscall(SYS_pwrite64, fd, bytes, length, at);

    look();
    if (done == (ssize_t)length)
        note(write_to(fd, bytes, length, at));
    return done;
}

ssize_t pwrite64(int fd, const void *bytes, size_t length, off_t at)
{
    return pwrite(fd, bytes, length, at);
}

/* What the file holds before anything is done to it. */
__attribute__((constructor)) static void begin(void)
{
    if (getenv("ACTIONS_FILE") != NULL)
        look();
}
