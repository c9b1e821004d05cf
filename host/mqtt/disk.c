/* Small files that are there whole or not at all. */
#include "disk.h"

#include <errno.h>
#include <fcntl.h>
#include <stdio.h>
#include <stdlib.h>
#include <string.h>
#include <sys/stat.h>
#include <unistd.h>

static int write_all(int fd, const uint8_t *bytes, size_t size)
{
    while (size > 0) {
        ssize_t n = write(fd, bytes, size);

        if (n < 0 && errno != EINTR)
            return -1;
        if (n > 0) {
            bytes += n;
            size -= (size_t)n;
        }
    }
    return 0;
}

/* The folder's entry is on the disk, too. */
static int sync_folder(const char *path)
{
    char folder[4096];
    char *slash;
    int fd, result;

    snprintf(folder, sizeof folder, "%s", path);
    slash = strrchr(folder, '/');
    if (slash == NULL)
        snprintf(folder, sizeof folder, ".");
    else
        slash[slash == folder] = '\0';
    fd = open(folder, O_RDONLY | O_DIRECTORY | O_CLOEXEC);
    if (fd < 0)
        return -1;
    result = fsync(fd);
    close(fd);
    return result;
}

int disk_write(const char *path, const uint8_t *first, size_t first_size,
               const uint8_t *second, size_t second_size, int sync)
{
    char other[4096];
    int fd, result;

    snprintf(other, sizeof other, "%s.new", path);
    fd = open(other, O_WRONLY | O_CREAT | O_TRUNC | O_CLOEXEC, 0644);
    if (fd < 0)
        return -1;
    result = write_all(fd, first, first_size);
    if (result == 0)
        result = write_all(fd, second, second_size);
    if (result == 0 && sync)
        result = fdatasync(fd);
    if (close(fd) != 0)
        result = -1;
    if (result == 0)
        result = rename(other, path);
    if (result == 0 && sync)
        result = sync_folder(path);
    return result;
}

size_t disk_read(const char *path, uint8_t *to, size_t room)
{
    int fd = open(path, O_RDONLY | O_CLOEXEC);
    struct stat st;
    size_t size = 0;

    if (fd < 0)
        return 0;
    if (fstat(fd, &st) == 0)
        size = (size_t)st.st_size;
    for (size_t at = 0; to != NULL && at < size && size <= room;) {
        ssize_t n = read(fd, to + at, size - at);

        if (n <= 0) {
            size = 0;
            break;
        }
        at += (size_t)n;
    }
    close(fd);
    return size;
}

uint8_t *memory_lend(struct memory *m, unsigned place, size_t bytes)
{
    if (bytes > m->size[place]) {
        size_t size = bytes + bytes / 2;
        uint8_t *more = realloc(m->piece[place], size);

        if (more == NULL)
            return NULL;
        m->piece[place] = more;
        m->size[place] = size;
    }
    return m->piece[place];
}

void memory_free(struct memory *m)
{
    for (size_t i = 0; i < sizeof m->piece / sizeof *m->piece; i++)
        free(m->piece[i]);
}
