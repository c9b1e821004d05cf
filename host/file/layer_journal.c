/* The file layer's journal: a change is brought to the file.
 *
 * The order of flushes stands in layer_journal_commit and the three functions
 * that it calls, and nowhere else: prepare (content, head and base; the name),
 * bring (the mark; the stretches) and layer_finish_change (the file; base and
 * mark 0, which are flushed before content is written again). The lock on the
 * bytes is held from the mark to the last stretch: so a reader that has the
 * bytes sees none of them or all.
 */
#define _DEFAULT_SOURCE

#include "layer_journal.h"

#include <errno.h>
#include <fcntl.h>
#include <stdlib.h>
#include <string.h>
#include <sys/mman.h>
#include <sys/stat.h>
#include <unistd.h>

#define STAGE_BYTES (1u << 16)

/* ---- words ---- */

uint32_t layer_fail_on_journal(bhtf_file *f, const char *what, int error)
{
    char shown[LAYER_SHOWN];

    return layer_fail(f, BHTF_FILE_SYSTEM, error,
                      "nothing was changed: its journal %s %s",
                      layer_shown(f->journal_path, shown), what);
}

static uint32_t disk_failed(bhtf_file *f, int error)
{
    f->broken = 1;
    f->unsure = 1;
    return layer_fail(f, BHTF_FILE_SYSTEM, error,
                      "cannot be written to the disk; whether the change is "
                      "there is told when the file is opened again");
}

/* ---- sums ---- */

/* What a call changes and reads lies in front of the image's next free offset:
 * the header has it. */
static uint64_t next_free(const uint8_t *image, size_t length)
{
    uint64_t offset = length < LAYER_PAGE ? length : layer_u32(image + 52);

    return offset < length ? offset : length;
}

/* So many bytes of the file count: those that matter before the change or after
 * it, and those that it writes. */
static uint64_t reach_of(const bhtf_file *f)
{
    const uint8_t *last = f->runs + 8 * (f->run_count - 1);
    uint64_t reach = (uint64_t)layer_u32(last) + layer_u32(last + 4);
    uint64_t before = next_free(f->disk, f->length);
    uint64_t after = next_free(f->image, f->length);

    reach = reach > before ? reach : before;
    reach = reach > after ? reach : after;
    reach = (reach + LAYER_PAGE - 1) / LAYER_PAGE * LAYER_PAGE;
    return reach < f->length ? reach : f->length;
}

/* The sum is kept while the file is open; pages that count from now on are
 * added. */
static void learn_sum(bhtf_file *f)
{
    uint64_t reach = reach_of(f);

    if (reach <= f->reach)
        return;
    f->sum += layer_sum(f->disk, f->length, f->reach, reach);
    f->reach = reach;
}

/* ---- a change: the journal's place ---- */

/* The same people may read it as the file, as far as this one may say so: a
 * group that is not the file's gets no rights. */
static void share(const bhtf_file *f, const struct stat *about)
{
    mode_t mode = about->st_mode & 0666;
    int ignored;

    if (fchown(f->journal, about->st_uid, about->st_gid) != 0 &&
        fchown(f->journal, (uid_t)-1, about->st_gid) != 0)
        mode &= ~(mode_t)060;
    ignored = fchmod(f->journal, mode);
    (void)ignored;
}

/* Has the open journal still its name, and the length that it was given? */
static int stands(const bhtf_file *f)
{
    struct stat about;

    return layer_is_entry(f->directory, f->journal_entry, f->journal) &&
           fstat(f->journal, &about) == 0 &&
           (uint64_t)about.st_size == f->room;
}

/* A file for it, which has no name, or its draft's. */
static int open_new(bhtf_file *f)
{
    f->drafted = 0;
    f->named = 0;
    f->unmarked = 0;
    f->journal = layer_open_nameless(f->directory, 0600);
    if (f->journal >= 0 || errno != EOPNOTSUPP)
        return f->journal >= 0 ? 0 : errno;
    unlinkat(f->directory, f->draft_entry, 0);
    f->journal = openat(f->directory, f->draft_entry,
                        O_RDWR | O_CREAT | O_EXCL | O_CLOEXEC, 0600);
    f->drafted = f->journal >= 0;
    return f->journal >= 0 ? 0 : errno;
}

/* Forgets one that has no name yet. */
static void forget_new(bhtf_file *f)
{
    if (f->drafted)
        unlinkat(f->directory, f->draft_entry, 0);
    close(f->journal);
    f->journal = -1;
    f->drafted = 0;
}

static uint64_t room_for(uint64_t content)
{
    return (content + 3 * LAYER_PAGE - 1) / LAYER_PAGE * LAYER_PAGE;
}

static int allocate(bhtf_file *f, uint64_t room)
{
    int error;

    do
        error = posix_fallocate(f->journal, 0, (off_t)room);
    while (error == EINTR);
    f->room = room;
    return error;
}

/* The base, and mark 0. */
static int write_base(bhtf_file *f, const struct base *b)
{
    uint8_t bytes[BASE_BYTES];

    layer_put_base(bytes, b);
    return layer_write_at(f->journal, bytes, sizeof bytes,
                          f->room - LAYER_PAGE);
}

/* A journal of another is in the way. */
static int is_taken(const bhtf_file *f)
{
    struct stat about;

    return fstatat(f->directory, f->journal_entry, &about,
                   AT_SYMLINK_NOFOLLOW) == 0;
}

static uint32_t in_the_way(bhtf_file *f)
{
    return layer_fail_on_journal(f, "is something else, or another's that "
                                 "cannot be removed", EEXIST);
}

/* With its rights, its room and its base; without its name. */
static uint32_t make_journal(bhtf_file *f, uint64_t room)
{
    const struct base now = { f->reach, f->sum };
    struct stat about;
    int error;

    if (fstat(f->fd, &about) != 0)
        return layer_fail(f, BHTF_FILE_SYSTEM, errno, "cannot be examined");
    if (is_taken(f))
        return in_the_way(f);
    error = open_new(f);
    if (error != 0)
        return layer_fail_on_journal(f, "cannot be created", error);
    share(f, &about);
    error = allocate(f, room);
    if (error != 0) {
        forget_new(f);
        return layer_fail_on_journal(f, "has no space", error);
    }
    error = write_base(f, &now);
    if (error == 0)
        return BHTF_ACCEPTED;
    forget_new(f);
    return layer_fail_on_journal(f, "cannot be written", error);
}

/* Mark 0 and base of the last change are on the disk before content is written
 * again. */
static uint32_t settle_mark(bhtf_file *f)
{
    int error = f->unmarked ? layer_flush(f, f->journal) : 0;

    if (error != 0) {
        f->broken = 1; /* the old mark may be on the disk for good */
        return layer_fail_on_journal(f, "cannot be written", error);
    }
    f->unmarked = 0;
    return BHTF_ACCEPTED;
}

/* One that is too short is replaced: a journal keeps its length. */
static uint32_t have_journal(bhtf_file *f, uint64_t content)
{
    uint64_t room = room_for(content);
    uint32_t number = BHTF_ACCEPTED;

    if (f->journal >= 0 && !stands(f)) {
        close(f->journal);
        f->journal = -1;
    }
    if (f->journal >= 0)
        number = settle_mark(f);
    if (number != BHTF_ACCEPTED)
        return number;
    if (f->journal >= 0 && room > f->room) {
        if (unlinkat(f->directory, f->journal_entry, 0) != 0)
            return in_the_way(f);
        close(f->journal);
        f->journal = -1;
    }
    return f->journal >= 0 ? BHTF_ACCEPTED : make_journal(f, room);
}

/* Its name is there when its bytes are on the disk. */
static int name_journal(bhtf_file *f)
{
    int error = layer_give_name(f->directory, f->journal,
                                f->drafted ? f->draft_entry : NULL,
                                f->journal_entry);

    if (error != 0)
        return error;
    f->drafted = 0;
    f->named = 1;
    return f->how.flags & BHTF_FILE_NO_SYNC
        ? 0 : layer_sync_names(f->directory, f->journal);
}

/* ---- a change: content ---- */

/* Bytes on their way to the journal. */
struct stream {
    bhtf_file *f;
    size_t filled;   /* of the stage */
    uint64_t at;     /* where the stage goes */
    uint64_t sum;    /* of content that has gone */
    int error;
};

static void stream_flush(struct stream *s)
{
    if (s->error == 0)
        s->error = layer_write_at(s->f->journal, s->f->stage, s->filled, s->at);
    for (size_t i = 0; i < s->filled; i += LAYER_PAGE)
        s->sum += layer_xxh64(s->f->stage + i, s->filled - i < LAYER_PAGE
                              ? s->filled - i : LAYER_PAGE,
                              (s->at + i) / LAYER_PAGE - 1);
    s->at += s->filled;
    s->filled = 0;
}

static void stream_put(struct stream *s, const uint8_t *bytes, size_t length)
{
    while (length > 0) {
        size_t part = STAGE_BYTES - s->filled;

        part = part < length ? part : length;
        memcpy(s->f->stage + s->filled, bytes, part);
        s->filled += part;
        bytes += part;
        length -= part;
        if (s->filled == STAGE_BYTES)
            stream_flush(s);
    }
}

static int write_content(bhtf_file *f, uint64_t *sum)
{
    struct stream s = { f, 0, LAYER_PAGE, 0, 0 };
    uint8_t count[4];

    layer_put_u32(count, (uint32_t)f->run_count);
    stream_put(&s, count, sizeof count);
    stream_put(&s, f->runs, 8 * f->run_count);
    for (size_t i = 0; i < f->run_count; i++)
        stream_put(&s, f->image + layer_u32(f->runs + 8 * i),
                   layer_u32(f->runs + 8 * i + 4));
    stream_flush(&s);
    *sum = s.sum;
    return s.error;
}

static int write_head(bhtf_file *f, uint64_t content, uint64_t sum,
                      const struct base *after)
{
    uint8_t bytes[HEAD_BYTES];
    struct head h;
    uint64_t met = layer_sum_met(f->disk, f->length, f->runs, f->run_count, 0);

    h.number[JOURNAL_LENGTH] = f->room;
    h.number[FILE_LENGTH] = f->length;
    h.number[CONTENT_LENGTH] = content;
    h.number[CONTENT_SUM] = sum;
    h.number[REACH] = f->reach;
    h.number[BEFORE_SUM] = f->sum;
    h.number[AFTER_SUM] = after->sum;
    h.number[OTHERS_SUM] = f->sum - met +
        layer_sum_met(f->disk, f->length, f->runs, f->run_count, 1);
    layer_put_head(bytes, &h);
    return layer_write_at(f->journal, bytes, sizeof bytes, 0);
}

static uint64_t sum_after(const bhtf_file *f)
{
    return f->sum -
           layer_sum_met(f->disk, f->length, f->runs, f->run_count, 0) +
           layer_sum_met(f->image, f->length, f->runs, f->run_count, 0);
}

/* Content and head, flushed; the name, flushed. *after is what the file will
 * be. */
static uint32_t prepare(bhtf_file *f, struct base *after)
{
    uint64_t content = 4 + 8 * (uint64_t)f->run_count + f->run_bytes;
    uint32_t number;
    uint64_t sum;
    int error;

    if (f->stage == NULL)
        f->stage = malloc(STAGE_BYTES);
    if (f->stage == NULL)
        return layer_fail(f, BHTF_FILE_SYSTEM, ENOMEM, "nothing was changed");
    learn_sum(f);
    after->reach = f->reach;
    after->sum = sum_after(f);
    number = have_journal(f, content);
    if (number != BHTF_ACCEPTED)
        return number;
    error = write_content(f, &sum);
    if (error == 0)
        error = write_head(f, content, sum, after);
    if (error == 0)
        error = layer_flush(f, f->journal);
    if (error == 0 && !f->named)
        error = name_journal(f);
    if (error == 0)
        return BHTF_ACCEPTED;
    if (!f->named)
        forget_new(f);
    return layer_fail_on_journal(f, "cannot be written", error);
}

/* ---- a change: the file ---- */

static uint32_t ask_length(bhtf_file *f)
{
    struct stat about;

    if (fstat(f->fd, &about) != 0)
        return layer_fail(f, BHTF_FILE_SYSTEM, errno, "cannot be examined");
    if ((uint64_t)about.st_size != f->length)
        return layer_fail(f, BHTF_FILE_REPLACED, 0, "cut short or made longer "
                          "by another program while it was in use");
    return BHTF_ACCEPTED;
}

static int fill_pages(bhtf_file *f, uint64_t from, uint64_t end)
{
    int error;

    end = end < f->length ? end : f->length;
    do
        error = posix_fallocate(f->fd, (off_t)from, (off_t)(end - from));
    while (error == EINTR);
    return error;
}

/* Places on the disk for what will be written, where the file has holes: a
 * full disk is an error here, and not a signal later. A store to a mapped page
 * needs places for all of it, and blocks may be shorter: so whole pages of the
 * system are asked for. */
static uint32_t fill_holes(bhtf_file *f)
{
    const long system_page = sysconf(_SC_PAGESIZE);
    const uint64_t page = system_page > (long)LAYER_PAGE
        ? (uint64_t)system_page : LAYER_PAGE;
    uint64_t start = 0, done = 0; /* pages from start to done are asked for */
    int error = 0;

    if (layer_has_no_holes(f->fd, f->length))
        return BHTF_ACCEPTED;
    for (size_t i = 0; i < f->run_count && error == 0; i++) {
        uint64_t from = layer_u32(f->runs + 8 * i);
        uint64_t end = from + layer_u32(f->runs + 8 * i + 4);

        from = from / page * page;
        if (from > done) {
            error = done > start ? fill_pages(f, start, done) : 0;
            start = from;
        }
        done = (end + page - 1) / page * page;
    }
    if (error == 0 && done > start)
        error = fill_pages(f, start, done);
    return error == 0
        ? BHTF_ACCEPTED
        : layer_fail(f, BHTF_FILE_SYSTEM, error, "cannot allocate its space; "
                     "nothing was changed");
}

static int set_mark(const bhtf_file *f, uint8_t mark)
{
    return layer_write_at(f->journal, &mark, 1, f->room - 1);
}

/* Takes back a mark that may not have reached the disk. */
static uint32_t unmark(bhtf_file *f, int error)
{
    if (set_mark(f, 0) != 0 || layer_flush(f, f->journal) != 0)
        return disk_failed(f, error);
    return layer_fail_on_journal(f, "cannot be written", error);
}

/* The journal as it is on the disk, in memory: NULL with errno. */
static uint8_t *map_journal(const bhtf_file *f)
{
    uint8_t *bytes = mmap(NULL, (size_t)f->room, PROT_READ | PROT_WRITE,
                          MAP_PRIVATE, f->journal, 0);

    return bytes == MAP_FAILED ? NULL : bytes;
}

/* Has the file still its one name, and the journal its own? */
static uint32_t ask_places(bhtf_file *f)
{
    uint32_t number = layer_ask_name(f);

    if (number == BHTF_ACCEPTED)
        number = layer_ask_names(f);
    if (number == BHTF_ACCEPTED && !stands(f))
        number = layer_fail_on_journal(f, "was removed or replaced by another "
                                       "program", ENOENT);
    return number;
}

/* With the lock on the bytes: the mark, flushed; the stretches, by the proved
 * call. */
static uint32_t bring(bhtf_file *f)
{
    uint32_t number = ask_places(f);
    uint8_t *journal;
    int error;

    if (number != BHTF_ACCEPTED)
        return number;
    journal = map_journal(f);
    if (journal == NULL)
        return layer_fail_on_journal(f, "cannot be mapped", errno);
    error = set_mark(f, MARK);
    if (error == 0)
        error = layer_flush(f, f->journal);
    if (error == 0) {
        journal[f->room - 1] = MARK;
        if (bhtf_recover(f->disk, f->length, journal + LAYER_PAGE,
                         (size_t)f->room - LAYER_PAGE) != BHTF_ACCEPTED)
            error = EINVAL;
    }
    munmap(journal, (size_t)f->room);
    return error == 0 ? BHTF_ACCEPTED : unmark(f, error);
}

uint32_t layer_finish_change(bhtf_file *f, const struct base *after)
{
    int error = 0;

#ifndef __linux__ /* where fdatasync does this too */
    if (!(f->how.flags & BHTF_FILE_NO_SYNC) &&
        msync(f->disk, f->length, MS_SYNC) != 0)
        error = errno;
#endif
    if (error == 0)
        error = layer_flush(f, f->fd);
    if (error == 0)
        error = write_base(f, after);
    if (error == 0)
        error = set_mark(f, 0);
    if (error != 0)
        return disk_failed(f, error);
    f->unmarked = 1;
    return BHTF_ACCEPTED;
}

uint32_t layer_journal_commit(bhtf_file *f, int64_t deadline)
{
    struct base after;
    uint32_t number = layer_ask_name(f);

    if (number == BHTF_ACCEPTED)
        number = layer_ask_names(f);
    if (number == BHTF_ACCEPTED)
        number = ask_length(f);
    if (number == BHTF_ACCEPTED)
        number = fill_holes(f);
    if (number == BHTF_ACCEPTED)
        number = prepare(f, &after);
    if (number == BHTF_ACCEPTED)
        number = layer_lock_bytes(f, deadline);
    if (number != BHTF_ACCEPTED)
        return number;
    number = bring(f);
    layer_unlock_bytes(f);
    if (number != BHTF_ACCEPTED)
        return number;
    f->sum = after.sum;
    return layer_finish_change(f, &after);
}

/* A journal that still has a mark stays, and so does another's of its name. */
uint32_t layer_journal_close(bhtf_file *f)
{
    char shown[LAYER_SHOWN];
    int error = 0;

    if (f->journal < 0)
        return BHTF_ACCEPTED;
    if (!f->broken && layer_is_owner(f)) {
        if (f->unmarked)
            error = layer_flush(f, f->journal);
        if (error == 0 &&
            layer_is_entry(f->directory, f->journal_entry, f->journal) &&
            unlinkat(f->directory, f->journal_entry, 0) != 0)
            error = errno;
    }
    if (close(f->journal) != 0 && error == 0)
        error = errno;
    f->journal = -1;
    return error == 0 ? BHTF_ACCEPTED
                      : layer_fail(f, BHTF_FILE_SYSTEM, error,
                                   "its journal %s cannot be removed",
                                   layer_shown(f->journal_path, shown));
}
