/* The file layer: a new file, whose name is there when all of it is. */
#include "layer.h"

#include <errno.h>
#include <fcntl.h>
#include <stdio.h>
#include <stdlib.h>
#include <string.h>
#include <sys/mman.h>
#include <sys/stat.h>
#include <unistd.h>

/* Under which the file is written where files without a name are not to be
 * had. Six letters X are replaced. */
#define TEMPORARY ".new-XXXXXX"

/* The same for one that takes the place of another: its writer's lock is held,
 * so that there is one only. */
#define DRAFT ".new"

struct bhtf_file_new {
    const char *path;
    const bhtf_file *over;  /* the open file whose place it takes, or NULL */
    struct bhtf_file_error *why;
    int directory;
    const char *entry;  /* its name there */
    char *journal;
    char *temporary;    /* path, if it has one */
    int fd;
    int sync;
    uint8_t *bytes;
    size_t length;
};

static uint32_t fail(bhtf_file_new *m, const char *what, int error)
{
    char shown[LAYER_SHOWN];

    if (m->why != NULL) {
        m->why->number = BHTF_FILE_SYSTEM;
        m->why->error = error;
        snprintf(m->why->words, sizeof m->why->words, "%s: %s",
                 layer_shown(m->path, shown), what);
        layer_put_error(m->why->words, sizeof m->why->words, error);
    }
    errno = error;
    return BHTF_FILE_SYSTEM;
}

static uint32_t is_there(bhtf_file_new *m)
{
    char shown[LAYER_SHOWN];

    if (m->why != NULL) {
        m->why->number = BHTF_FILE_SYSTEM;
        m->why->error = EEXIST;
        snprintf(m->why->words, sizeof m->why->words, "%s: there already is a "
                 "file of that name; it is left as it was",
                 layer_shown(m->path, shown));
    }
    errno = EEXIST;
    return BHTF_FILE_SYSTEM;
}

static char *joined(const char *a, size_t length, const char *b)
{
    char *words = malloc(length + strlen(b) + 1);

    if (words != NULL) {
        memcpy(words, a, length);
        strcpy(words + length, b);
    }
    return words;
}

static const char *entry_of(const char *path)
{
    const char *slash = strrchr(path, '/');

    return slash == NULL ? path : slash + 1;
}

static uint32_t make_names(bhtf_file_new *m)
{
    char *directory;

    m->entry = entry_of(m->path);
    directory = m->entry == m->path
        ? joined(".", 1, "")
        : joined(m->path, (size_t)(m->entry - m->path), "");
    m->journal = joined(m->path, strlen(m->path), ".journal");
    if (directory != NULL)
        m->directory = layer_open_directory(directory);
    else
        errno = ENOMEM;
    free(directory);
    if (m->directory < 0)
        return fail(m, "cannot create", errno);
    return m->journal != NULL ? BHTF_ACCEPTED
                              : fail(m, "cannot create", ENOMEM);
}

/* A journal without its file: of one that is gone, or stands elsewhere. */
static uint32_t ask_names(bhtf_file_new *m)
{
    char shown[LAYER_SHOWN], journal[LAYER_SHOWN];
    struct stat about;

    if (lstat(m->path, &about) == 0)
        return is_there(m);
    if (lstat(m->journal, &about) != 0)
        return errno != ENAMETOOLONG
            ? BHTF_ACCEPTED
            : fail(m, "cannot create: no journal could stand beside it",
                   ENAMETOOLONG);
    fail(m, "cannot create", EEXIST);
    if (m->why != NULL)
        snprintf(m->why->words, sizeof m->why->words, "%s: cannot create: there "
                 "is a journal %s of a file that is gone; if nobody has that "
                 "file any more, remove the journal",
                 layer_shown(m->path, shown), layer_shown(m->journal, journal));
    return BHTF_FILE_SYSTEM;
}

/* The rights that the process's mask leaves. */
static mode_t usual_rights(void)
{
    mode_t mask = umask(0);

    umask(mask);
    return 0666 & ~mask;
}

/* One with a name, for a while. What an earlier one left is taken away. */
static uint32_t open_temporary(bhtf_file_new *m)
{
    m->temporary = joined(m->path, strlen(m->path),
                          m->over != NULL ? DRAFT : TEMPORARY);
    if (m->temporary == NULL)
        return fail(m, "cannot create", ENOMEM);
    if (m->over != NULL) {
        unlink(m->temporary);
        m->fd = open(m->temporary, O_RDWR | O_CREAT | O_EXCL | O_CLOEXEC, 0600);
    } else {
        m->fd = mkstemp(m->temporary);
    }
    if (m->fd < 0) {
        int error = errno;

        free(m->temporary);
        m->temporary = NULL;
        return fail(m, "cannot create", error);
    }
    return BHTF_ACCEPTED;
}

/* The rights of the file in whose place it comes, as far as this process may
 * give them; a group that is not that file's gets none. */
static void take_rights(bhtf_file_new *m)
{
    struct stat about;
    mode_t mode;
    int ignored;

    if (fstat(m->over->fd, &about) != 0)
        return;
    mode = about.st_mode & 0777;
    if (fchown(m->fd, about.st_uid, about.st_gid) != 0 &&
        fchown(m->fd, (uid_t)-1, about.st_gid) != 0)
        mode &= ~(mode_t)070;
    ignored = fchmod(m->fd, mode);
    (void)ignored;
}

static uint32_t open_new(bhtf_file_new *m)
{
    uint32_t number = BHTF_ACCEPTED;

    m->fd = layer_open_nameless(m->directory, m->over != NULL ? 0600 : 0666);
    if (m->fd < 0 && errno != EOPNOTSUPP)
        return fail(m, "cannot create", errno);
    if (m->fd < 0)
        number = open_temporary(m);
    if (number != BHTF_ACCEPTED)
        return number;
    if (m->over != NULL)
        take_rights(m);
    else if (m->temporary != NULL)
        fchmod(m->fd, usual_rights());
    return BHTF_ACCEPTED;
}

/* Every page gets its place on the disk now: a full disk is then an error here
 * and not a signal later. */
static uint32_t map_new(bhtf_file_new *m)
{
    int error;

    if (m->length == 0)
        return fail(m, "cannot create", EINVAL);
    do
        error = posix_fallocate(m->fd, 0, (off_t)m->length);
    while (error == EINTR);
    if (error != 0)
        return fail(m, "cannot allocate its space", error);
    m->bytes = mmap(NULL, m->length, PROT_READ | PROT_WRITE, MAP_SHARED, m->fd,
                    0);
    if (m->bytes != MAP_FAILED)
        return BHTF_ACCEPTED;
    m->bytes = NULL;
    return fail(m, "cannot be mapped", errno);
}

static uint32_t flush_new(bhtf_file_new *m)
{
    if (m->sync &&
        (msync(m->bytes, m->length, MS_SYNC) != 0 || fsync(m->fd) != 0))
        return fail(m, "cannot be written to the disk", errno);
    return BHTF_ACCEPTED;
}

/* A name that no file has: 0, or errno. */
static int name_new(bhtf_file_new *m)
{
    return layer_give_name(m->directory, m->fd, m->temporary == NULL
                           ? NULL : entry_of(m->temporary), m->entry);
}

/* The name of the file whose place it takes: 0, or errno. The names in which a
 * journal is gone are on the disk first; else it could come back beside the new
 * file. */
static int name_over(bhtf_file_new *m)
{
    int error = m->sync ? layer_sync_names(m->directory, m->fd) : 0;
    char *draft;

    if (error != 0)
        return error;
    if (m->temporary == NULL) {
        draft = joined(m->path, strlen(m->path), DRAFT);
        if (draft == NULL)
            return ENOMEM;
        unlink(draft);
        error = layer_give_name(m->directory, m->fd, NULL, entry_of(draft));
        if (error == 0)
            m->temporary = draft;
        else
            free(draft);
    }
    if (error == 0 && !layer_is_entry(m->directory, m->entry, m->over->fd))
        error = ESTALE;
    if (error == 0 && renameat(m->directory, entry_of(m->temporary),
                               m->directory, m->entry) != 0)
        error = errno;
    return error;
}

static uint32_t name_it(bhtf_file_new *m)
{
    int error = m->over != NULL ? name_over(m) : name_new(m);

    if (error != 0)
        return error == EEXIST ? is_there(m) : fail(m, "cannot create", error);
    free(m->temporary);
    m->temporary = NULL;
    if (m->sync)
        error = layer_sync_names(m->directory, m->fd);
    return error == 0 ? BHTF_ACCEPTED
                      : fail(m, "cannot be written to the disk", error);
}

/* ---- a new file, in two steps ---- */

static uint32_t begin(bhtf_file_new *m)
{
    uint32_t number = make_names(m);

    if (number == BHTF_ACCEPTED && m->over == NULL)
        number = ask_names(m);
    if (number == BHTF_ACCEPTED)
        number = open_new(m);
    return number == BHTF_ACCEPTED ? map_new(m) : number;
}

/* In the place of an open file, or, where that is NULL, of none. */
static bhtf_file_new *begin_over(const char *path, const bhtf_file *over,
                                 size_t image_len,
                                 const struct bhtf_file_how *how,
                                 struct bhtf_file_error *why)
{
    bhtf_file_new *m = calloc(1, sizeof *m);

    if (m == NULL) {
        bhtf_file_new none = { path, over, why, -1, NULL, NULL, NULL, -1, 0,
                               NULL, 0 };

        fail(&none, "cannot create", ENOMEM);
        return NULL;
    }
    m->path = path;
    m->over = over;
    m->why = why;
    m->fd = -1;
    m->directory = -1;
    m->length = image_len;
    m->sync = how == NULL || !(how->flags & BHTF_FILE_NO_SYNC);
    if (begin(m) == BHTF_ACCEPTED)
        return m;
    bhtf_file_new_drop(m);
    return NULL;
}

bhtf_file_new *bhtf_file_new_begin(const char *path, size_t image_len,
                                   const struct bhtf_file_how *how,
                                   struct bhtf_file_error *why)
{
    return begin_over(path, NULL, image_len, how, why);
}

bhtf_file_new *layer_new_over(const bhtf_file *f, size_t image_len,
                              struct bhtf_file_error *why)
{
    return begin_over(f->real, f, image_len, &f->how, why);
}

uint8_t *bhtf_file_new_image(bhtf_file_new *m)
{
    return m->bytes;
}

void bhtf_file_new_drop(bhtf_file_new *m)
{
    int error = errno;

    if (m->bytes != NULL)
        munmap(m->bytes, m->length);
    if (m->fd >= 0)
        close(m->fd);
    if (m->temporary != NULL)
        unlink(m->temporary);
    free(m->temporary);
    if (m->directory >= 0)
        close(m->directory);
    free(m->journal);
    free(m);
    errno = error;
}

uint32_t bhtf_file_new_end(bhtf_file_new *m)
{
    uint32_t number = flush_new(m);

    if (number == BHTF_ACCEPTED)
        number = name_it(m);
    bhtf_file_new_drop(m);
    return number;
}

uint32_t bhtf_file_create(const char *path, const uint8_t *image,
                          size_t image_len, const struct bhtf_file_how *how,
                          struct bhtf_file_error *why)
{
    bhtf_file_new *m = bhtf_file_new_begin(path, image_len, how, why);

    if (m == NULL)
        return BHTF_FILE_SYSTEM;
    memcpy(m->bytes, image, image_len);
    return bhtf_file_new_end(m);
}
