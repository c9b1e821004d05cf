/* --delta FILE: what a command changed, appended for the stations.
 *
 * The record is on the disk before the change is in the file, while it can
 * still be undone; one that a cut change left is taken away by the next. */
#define _GNU_SOURCE /* for O_TMPFILE */

#include "delta_append.h"

#include "complain.h"

#include <errno.h>
#include <fcntl.h>
#include <stdlib.h>
#include <string.h>
#include <sys/stat.h>
#include <unistd.h>

static int fail(const struct delta_append *f, const char *what)
{
    complain("%s: %s: %s", f->path, what, strerror(errno));
    return -1;
}

/* ---- the file of records ---- */

static int is_image(const struct delta_append *f, const struct image *i)
{
    struct stat a, b;

    if (stat(f->path, &a) != 0 || stat(i->path, &b) != 0 ||
        a.st_dev != b.st_dev || a.st_ino != b.st_ino)
        return 0;
    complain("%s: is the file itself; --delta needs another", f->path);
    return 1;
}

/* A new one has the rights of the file whose changes it tells, as far as this
 * process may give them; and none of a group that is not the file's. */
static void share(const struct image *i, int fd)
{
    struct stat about;
    mode_t mode;
    int ignored;

    if (stat(i->path, &about) != 0)
        return;
    mode = about.st_mode & 0666;
    if (fchown(fd, about.st_uid, about.st_gid) != 0 &&
        fchown(fd, (uid_t)-1, about.st_gid) != 0)
        mode &= ~(mode_t)060;
    ignored = fchmod(fd, mode);
    (void)ignored;
}

/* The directory of a path, to be freed as a buffer; empty for no memory. */
static struct buffer directory_of(const char *path)
{
    const char *slash = strrchr(path, '/');
    size_t length = slash == NULL ? 1 : (size_t)(slash - path) + 1;
    struct buffer b = { NULL, 0, 0 };

    if (buffer_put(&b, slash == NULL ? "." : path, length) != 0 ||
        buffer_put_byte(&b, '\0') != 0)
        buffer_free(&b);
    return b;
}

/* A new file gets its name when its record is on the disk, where the system has
 * files without a name: a descriptor, or -1. */
static int open_nameless(const struct delta_append *f)
{
    int fd = -1;
#ifdef O_TMPFILE
    struct buffer directory = directory_of(f->path);

    if (directory.length > 0 && access("/proc/self/fd", X_OK) == 0)
        fd = open((const char *)directory.bytes,
                  O_TMPFILE | O_RDWR | O_APPEND | O_CLOEXEC, 0600);
    buffer_free(&directory);
#else
    (void)f;
#endif
    return fd;
}

static int open_records(struct delta_append *f, const struct image *i)
{
    const int flags = O_RDWR | O_APPEND | O_CLOEXEC | O_NONBLOCK | O_NOCTTY;
    int fd = open(f->path, flags);

    if (fd < 0 && errno == ENOENT) {
        fd = open_nameless(f);
        f->nameless = fd >= 0;
        if (fd < 0)
            fd = open(f->path, flags | O_CREAT | O_EXCL, 0600);
        f->created = fd >= 0;
        if (fd >= 0)
            share(i, fd);
    }
    f->file = fd < 0 ? NULL : fdopen(fd, "r");
    if (f->file == NULL && fd >= 0)
        close(fd);
    return f->file != NULL ? 0 : fail(f, "cannot open");
}

static int give_name(struct delta_append *f)
{
    char link[64];

    if (!f->nameless)
        return 0;
    snprintf(link, sizeof link, "/proc/self/fd/%d", fileno(f->file));
    if (linkat(AT_FDCWD, link, AT_FDCWD, f->path, AT_SYMLINK_FOLLOW) != 0)
        return fail(f, "cannot be created");
    f->nameless = 0;
    return 0;
}

static int learn_end(struct delta_append *f)
{
    struct stat about;

    if (fstat(fileno(f->file), &about) != 0)
        return fail(f, "cannot be examined");
    if (!S_ISREG(about.st_mode)) {
        complain("%s: not a regular file", f->path);
        return -1;
    }
    f->end = about.st_size;
    return 0;
}

static int refuse_records(const struct delta_append *f, const struct image *i,
                          const char *why)
{
    complain("%s: %s, so that no copy could follow; nothing is changed. Name "
             "another file for --delta, and send the stations all of %s, or "
             "what bhtf delta prints", f->path, why, i->path);
    return -1;
}

/* The last records of the file, by their heads. */
struct tail {
    off_t last;      /* where the last one begins, */
    off_t before;    /* the one before it, or -1, */
    off_t end;       /* and where it ends */
    size_t count;    /* of all of them */
};

/* Reads a record's head, or what there is of it: its bytes, or -1. */
static int read_head_at(const struct delta_append *f, off_t at,
                        uint8_t head[BHTF_DELTA_HEAD])
{
    size_t got;

    if (fseeko(f->file, at, SEEK_SET) != 0)
        return -1;
    got = fread(head, 1, BHTF_DELTA_HEAD, f->file);
    return ferror(f->file) ? -1 : (int)got;
}

/* Goes from head to head as far as records go that could all be there: 0, or
 * -1 if the file cannot be read. */
static int find_tail(const struct delta_append *f, struct tail *t)
{
    t->last = t->before = -1;
    t->end = 0;
    t->count = 0;
    while (t->end < f->end) {
        uint8_t head[BHTF_DELTA_HEAD];
        int got = read_head_at(f, t->end, head);
        struct bhtf_delta d;

        if (got < 0)
            return -1;
        if (bhtf_delta_head(head, (size_t)got, &d) != BHTF_ACCEPTED ||
            (uint64_t)d.size > (uint64_t)(f->end - t->end))
            return 0;
        t->before = t->last;
        t->last = t->end;
        t->end += (off_t)d.size;
        t->count++;
    }
    return 0;
}

/* A record, or what there is of it, that was written by a command that was
 * ended before its change was made: nothing leads to it. */
static int drop_behind(struct delta_append *f, off_t end)
{
    if (ftruncate(fileno(f->file), end) != 0)
        return fail(f, "cannot be written to");
    f->end = end;
    complain("%s: warning: its last record was of a change that was cut short, "
             "and is taken away", f->path);
    return 0;
}

/* Which check sum of a whole record is the file's? */
enum leads { NOWHERE, FROM_FILE, TO_FILE, BROKEN, UNREAD };

static enum leads ask_record(struct delta_append *f, off_t from, off_t end)
{
    struct buffer bytes = { NULL, 0, 0 };
    enum leads leads = UNREAD;
    struct bhtf_delta d;

    if (fseeko(f->file, from, SEEK_SET) == 0 &&
        buffer_read(&bytes, f->file, (size_t)(end - from)) == 0)
        leads = bhtf_delta_check(bytes.bytes, bytes.length, &d) !=
                BHTF_ACCEPTED ? BROKEN
              : memcmp(d.after, f->before, BHTF_SUM) == 0 ? TO_FILE
              : memcmp(d.before, f->before, BHTF_SUM) == 0 ? FROM_FILE
              : NOWHERE;
    buffer_free(&bytes);
    return leads;
}

/* Are all of these bytes zero, as the power leaves them where a length came to
 * the disk and nothing else? */
static int is_zero(const struct delta_append *f, off_t from)
{
    int byte = 0;

    if (fseeko(f->file, from, SEEK_SET) != 0)
        return 0;
    while (byte == 0)
        byte = getc(f->file);
    return byte == EOF && !ferror(f->file);
}

/* A first record, of which not all came to the disk: its head says that it
 * goes on from the file. */
static int is_first_cut(const struct delta_append *f)
{
    uint8_t head[BHTF_DELTA_HEAD];
    int got = read_head_at(f, 0, head);
    struct bhtf_delta d;
    uint32_t number;

    if (got < 0)
        return 0;
    number = bhtf_delta_head(head, (size_t)got, &d);
    if (got < (int)BHTF_DELTA_HEAD)
        return number == BHTF_DELTA_CUT;
    return number == BHTF_ACCEPTED &&
           memcmp(d.before, f->before, BHTF_SUM) == 0;
}

static int refuse_tail(const struct delta_append *f, const struct image *i,
                       const struct tail *t, enum leads leads)
{
    return refuse_records(f, i, t->end < f->end ? "not a file of whole records"
                          : leads == BROKEN ? "its last record is damaged"
                          : leads == FROM_FILE
                          ? "its records do not go on from each other"
                          : "its last record leads to another file, or there "
                            "was a change without --delta since");
}

/* A change goes on where the last record ends that leads to the file. After it
 * may stand one record whose change was not made, whole or not, and nothing
 * that is another record: that would be of a change that was. */
static int ask_last(struct delta_append *f, const struct image *i)
{
    struct tail t;
    enum leads leads;

    if (find_tail(f, &t) != 0)
        return fail(f, "cannot be read");
    if (t.count == 0)
        return ((uint64_t)f->end <= (uint64_t)i->length + BHTF_DELTA_MOST &&
                is_zero(f, 0)) || is_first_cut(f)
            ? drop_behind(f, 0) : refuse_tail(f, i, &t, NOWHERE);
    leads = ask_record(f, t.last, t.end);
    if (leads == UNREAD)
        return fail(f, "cannot be read");
    if (leads == TO_FILE)
        return t.end == f->end ? 0 : drop_behind(f, t.end);
    if (t.count == 1
            ? leads == FROM_FILE || (leads == BROKEN && is_first_cut(f))
            : leads != NOWHERE && ask_record(f, t.before, t.last) == TO_FILE)
        return drop_behind(f, t.last);
    return refuse_tail(f, i, &t, leads);
}

static int ask_records(struct delta_append *f, const struct image *i)
{
    return f->end == 0 ? 0 : ask_last(f, i);
}

/* Takes a file away that was made for nothing. */
static void close_records(struct delta_append *f)
{
    struct stat about;

    if (f->file != NULL && f->created && !f->nameless &&
        fstat(fileno(f->file), &about) == 0 && about.st_size == 0)
        unlink(f->path);
    if (f->file != NULL)
        fclose(f->file);
    f->file = NULL;
}

/* ---- before the change ---- */

int delta_append_begin(struct delta_append *f, struct image *i,
                       const char *path)
{
    memset(f, 0, sizeof *f);
    f->path = path;
    if (path == NULL)
        return 0;
    bhtf_sum(i->bytes, i->length, f->before);
    if (!is_image(f, i) && open_records(f, i) == 0 && learn_end(f) == 0 &&
        ask_records(f, i) == 0)
        return 0;
    close_records(f);
    image_drop(i);
    return -1;
}

/* ---- after the change ---- */

static int write_record(const struct delta_append *f, const uint8_t *record,
                        size_t size)
{
    size_t done = 0;

    while (done < size) {
        ssize_t written = write(fileno(f->file), record + done, size - done);

        if (written < 0 && errno != EINTR)
            return fail(f, "cannot be written to");
        done += written < 0 ? 0 : (size_t)written;
    }
    return 0;
}

/* The file as it was; the image that is changed stands beside it. */
static const uint8_t *bytes_before(const struct image *i)
{
    size_t length;

    return bhtf_file_before(i->file, &length);
}

/* Makes the record in as many bytes as it has, or asks how many: 0, or -1 after
 * a complaint. */
static int make_record(const struct delta_append *f, const struct image *i,
                       uint8_t *record, size_t room, size_t *size)
{
    uint32_t number = bhtf_delta_make(bytes_before(i), i->bytes, i->length,
                                      f->before, record, room, size);

    if (number == BHTF_ACCEPTED || (number == BHTF_DELTA_ROOM && room == 0))
        return 0;
    complain("%s: refused (%lu): %s", i->path, (unsigned long)number,
             bhtf_message(number));
    return -1;
}

static int append(struct delta_append *f, const struct image *i)
{
    size_t size;
    uint8_t *record;
    int done;

    if (make_record(f, i, NULL, 0, &size) != 0)
        return -1;
    record = malloc(size);
    if (record == NULL) {
        out_of_memory();
        return -1;
    }
    done = make_record(f, i, record, size, &size);
    if (done == 0)
        done = write_record(f, record, size);
    free(record);
    return done;
}

/* Takes away what was appended. */
static void take_record_back(struct delta_append *f)
{
    if (ftruncate(fileno(f->file), f->end) != 0)
        fail(f, "cannot be made as long as it was");
}

/* Puts a directory's names on the disk: 0, or errno. For one that may not be
 * read, or that its file system does not write on demand, all is. */
static int sync_directory(const char *path)
{
    int fd = open(path, O_RDONLY | O_CLOEXEC);
    int error = fd >= 0 && fsync(fd) == 0 ? 0 : errno;

    if (fd >= 0)
        close(fd);
    if (error != EACCES && error != EINVAL)
        return error;
    sync();
    return 0;
}

/* Puts a new file's name on the disk, which is a matter of its directory: 0,
 * or an error. */
static int sync_name(const char *path)
{
    struct buffer directory = directory_of(path);
    int error = directory.length == 0
        ? ENOMEM : sync_directory((const char *)directory.bytes);

    buffer_free(&directory);
    return error;
}

/* The record, then the name of a new file. */
static int put_on_disk(struct delta_append *f, int sync)
{
    int error = !sync || fsync(fileno(f->file)) == 0 ? 0 : errno;

    if (error == 0 && give_name(f) != 0)
        return -1;
    if (error == 0 && sync && f->created)
        error = sync_name(f->path);
    errno = error;
    return error == 0 ? 0 : fail(f, "cannot be written to the disk");
}

/* Of an image that did change. A record whose change may be in the file, or be
 * finished there by the next command, stays. */
static int close_changed(struct delta_append *f, struct image *i)
{
    int done;

    if (append(f, i) != 0 || put_on_disk(f, i->sync) != 0) {
        take_record_back(f);
        image_drop(i);
        complain("%s: is as it was", i->path);
        return -1;
    }
    done = image_close(i);
    if (!i->committed && !i->unsure)
        take_record_back(f);
    return done;
}

int delta_append_close(struct delta_append *f, struct image *i)
{
    int done;

    if (f == NULL)
        return image_close(i);
    done = f->path != NULL && memcmp(bytes_before(i), i->bytes, i->length) != 0
        ? close_changed(f, i) : image_close(i);
    close_records(f);
    return done;
}

void delta_append_drop(struct delta_append *f, struct image *i)
{
    close_records(f);
    image_drop(i);
}
