/* The file layer: what a journal that stands beside a file is, and what is done
 * about it.
 *
 * One that is whole and marked holds an unfinished change, and is applied. One
 * that is not is dropped only where it is proved to be of no use: where the
 * file is, by the sums that head and base tell, as it was before the change or
 * after it. Anything else may be what is left of the journal of a file that is
 * half written: readers and writers stop, and a person decides.
 */
#define _DEFAULT_SOURCE /* for MAP_ANONYMOUS and MAP_NORESERVE */

#include "layer_journal.h"

#include <errno.h>
#include <fcntl.h>
#include <stdio.h>
#include <string.h>
#include <sys/mman.h>
#include <sys/stat.h>
#include <unistd.h>

/* ---- a journal that was found ---- */

struct found {
    int fd;              /* -1: there is none */
    struct stat about;
    uint64_t length;     /* that its head says, or that it has */
    uint64_t have;       /* of that */
    uint8_t *bytes;      /* `length` of them; NULL if there is no sense in it */
    struct head head;
    struct base base;
    int head_whole;
    int base_whole;
    int content_whole;
    int mark;            /* -1 if it was cut away */
};

static const uint8_t *content_of(const struct found *j)
{
    return j->bytes + LAYER_PAGE;
}

static void forget(struct found *j)
{
    if (j->bytes != NULL)
        munmap(j->bytes, (size_t)j->length);
    if (j->fd >= 0)
        close(j->fd);
    j->bytes = NULL;
    j->fd = -1;
}

/* No file has the journal's name; none can, where it is too long. */
static int is_absence(int error)
{
    return error == ENOENT || error == ENAMETOOLONG;
}

static uint32_t unknown(bhtf_file *f, const char *what, int error)
{
    char shown[LAYER_SHOWN];

    return layer_fail(f, BHTF_FILE_SYSTEM, error,
                      "nobody knows whether it is whole: its journal %s "
                      "cannot be %s", layer_shown(f->journal_path, shown),
                      what);
}

static uint32_t not_theirs(bhtf_file *f, const struct stat *about)
{
    char shown[LAYER_SHOWN];

    return layer_fail(f, BHTF_FILE_OWNER, 0,
                      "its journal %s belongs to user %lu, who may not write to "
                      "the file; nothing was applied (look who that is; bhtf "
                      "recover can put the journal aside)",
                      layer_shown(f->journal_path, shown),
                      (unsigned long)about->st_uid);
}

/* One that may not be opened may be another's, who must not stop anybody
 * without a word. */
static uint32_t cannot_open(bhtf_file *f, int error)
{
    struct stat about;

    if (is_absence(error))
        return BHTF_ACCEPTED;
    if (fstatat(f->directory, f->journal_entry, &about,
                AT_SYMLINK_NOFOLLOW) == 0 && !layer_may_write(f, &about))
        return not_theirs(f, &about);
    return unknown(f, "opened", error);
}

/* No change of the file has so long a journal. */
static uint64_t longest(const bhtf_file *f)
{
    return 4 * (uint64_t)f->length + 64 * LAYER_PAGE;
}

/* Do the pairs lie in the image, in order, and end with the content? What
 * bhtf_recover asks too; sums are taken over them before it is called. */
static int pairs_fit(const bhtf_file *f, const uint8_t *content,
                     uint64_t length)
{
    uint64_t pairs, bytes = 0, last = 0;

    if (length < 4)
        return 0;
    pairs = layer_u32(content);
    if (4 + 8 * pairs > length)
        return 0;
    for (uint64_t i = 0; i < pairs; i++) {
        uint64_t from = layer_u32(content + 4 + 8 * i);
        uint64_t size = layer_u32(content + 8 + 8 * i);

        if (from < last || from + size > f->length)
            return 0;
        last = from + size;
        bytes += size;
    }
    return 4 + 8 * pairs + bytes == length;
}

static int is_content_whole(const bhtf_file *f, const struct found *j)
{
    const uint64_t *n = j->head.number;

    return j->head_whole && j->length >= JOURNAL_LEAST &&
           n[CONTENT_LENGTH] <= j->length - 2 * LAYER_PAGE &&
           n[CONTENT_LENGTH] + LAYER_PAGE <= j->have &&
           n[CONTENT_SUM] == layer_content_sum(content_of(j),
                                               n[CONTENT_LENGTH]) &&
           (n[FILE_LENGTH] != f->length ||
            pairs_fit(f, content_of(j), n[CONTENT_LENGTH]));
}

static int is_base_whole(const bhtf_file *f, struct found *j)
{
    return j->length >= JOURNAL_LEAST && j->length % LAYER_PAGE == 0 &&
           j->have >= j->length - LAYER_PAGE + BASE_BYTES &&
           layer_take_base(j->bytes + j->length - LAYER_PAGE, &j->base) &&
           j->base.reach <= f->length;
}

/* The head says where the mark is: bytes that another program put after it do
 * not count. */
static int read_head(const bhtf_file *f, struct found *j)
{
    uint8_t bytes[HEAD_BYTES];
    uint64_t there = (uint64_t)j->about.st_size;
    int error = 0;

    if (there >= HEAD_BYTES) {
        error = layer_read_at(j->fd, bytes, HEAD_BYTES, 0);
        j->head_whole = error == 0 && layer_take_head(bytes, &j->head) &&
                        j->head.number[REACH] <= j->head.number[FILE_LENGTH] &&
                        j->head.number[JOURNAL_LENGTH] % LAYER_PAGE == 0;
    }
    j->length = j->head_whole ? j->head.number[JOURNAL_LENGTH] : there;
    j->have = there < j->length ? there : j->length;
    if (j->length == 0 || j->length > longest(f))
        j->length = j->have = 0;
    return error;
}

/* 0, or errno. */
static int read_all(const bhtf_file *f, struct found *j)
{
    int error = read_head(f, j);

    if (error != 0 || j->length == 0)
        return error;
    j->bytes = mmap(NULL, (size_t)j->length, PROT_READ | PROT_WRITE,
                    MAP_PRIVATE | MAP_ANONYMOUS | MAP_NORESERVE, -1, 0);
    if (j->bytes == MAP_FAILED) {
        j->bytes = NULL;
        return errno;
    }
    error = layer_read_at(j->fd, j->bytes, (size_t)j->have, 0);
    if (error != 0)
        return error;
    j->mark = j->have == j->length ? j->bytes[j->length - 1] : -1;
    j->base_whole = is_base_whole(f, j);
    j->content_whole = is_content_whole(f, j);
    return 0;
}

/* What is no regular file was never a journal; where a change needs the name,
 * it is complained of. */
static uint32_t find_journal(bhtf_file *f, struct found *j)
{
    int error;

    memset(j, 0, sizeof *j);
    j->mark = -1;
    j->fd = openat(f->directory, f->journal_entry, O_RDONLY | O_CLOEXEC |
                   O_NONBLOCK | O_NOCTTY | O_NOFOLLOW);
    if (j->fd < 0)
        return cannot_open(f, errno);
    if (fstat(j->fd, &j->about) != 0)
        return unknown(f, "examined", errno);
    if (!S_ISREG(j->about.st_mode)) {
        forget(j);
        return BHTF_ACCEPTED;
    }
    error = read_all(f, j);
    return error == 0 ? BHTF_ACCEPTED : unknown(f, "read", error);
}

/* ---- what it is ---- */

enum verdict { UNFINISHED, OF_NO_USE, FOREIGN, DAMAGED, NOT_THEIRS };

/* Are the file's bytes outside of the stretches what they were? */
static int is_same_file(const bhtf_file *f, const uint8_t *image,
                        const struct found *j)
{
    const uint64_t *n = j->head.number;
    const uint8_t *pairs = content_of(j) + 4;
    size_t count = layer_u32(content_of(j));

    return n[OTHERS_SUM] ==
           layer_sum(image, f->length, 0, n[REACH]) -
           layer_sum_met(image, f->length, pairs, count, 0) +
           layer_sum_met(image, f->length, pairs, count, 1);
}

/* Is the file, as a whole, one that the journal knows to be whole? */
static int is_known(const bhtf_file *f, const uint8_t *image,
                    const struct found *j)
{
    const uint64_t *n = j->head.number;
    uint64_t sum;

    if (j->head_whole) {
        sum = layer_sum(image, f->length, 0, n[REACH]);
        if (sum == n[BEFORE_SUM] || sum == n[AFTER_SUM])
            return 1;
    }
    return j->base_whole &&
           layer_sum(image, f->length, 0, j->base.reach) == j->base.sum;
}

/* A journal of another file that is not marked says nothing of this one. */
static enum verdict judge(const bhtf_file *f, const uint8_t *image,
                          const struct found *j)
{
    if (!layer_may_write(f, &j->about))
        return NOT_THEIRS;
    if (j->head_whole && j->head.number[FILE_LENGTH] != f->length)
        return j->mark == 0 ? OF_NO_USE : FOREIGN;
    if (f->length == 0)
        return DAMAGED;
    if (j->content_whole && !is_same_file(f, image, j))
        return j->mark == 0 ? OF_NO_USE : FOREIGN;
    if (j->content_whole && j->mark == MARK)
        return UNFINISHED;
    return is_known(f, image, j) ? OF_NO_USE : DAMAGED;
}

/* In words. */
static uint32_t stop(bhtf_file *f, enum verdict v, const struct found *j)
{
    char shown[LAYER_SHOWN];

    if (v == NOT_THEIRS)
        return not_theirs(f, &j->about);
    if (v == FOREIGN)
        return layer_fail(f, BHTF_FILE_FOREIGN, 0,
                          "its journal %s has an unfinished change of another "
                          "file, or of this one before it was replaced; nothing "
                          "was applied (if the file is as it should be, bhtf "
                          "recover puts the journal aside)",
                          layer_shown(f->journal_path, shown));
    return layer_fail(f, BHTF_FILE_JOURNAL, 0,
                      "its journal %s is damaged, and the file may be half "
                      "written; nothing was applied (go back to a copy, or see "
                      "what bhtf recover says)",
                      layer_shown(f->journal_path, shown));
}

/* Writes the stretches, by the proved call. The mark in memory is cleared, the
 * one on the disk is not. */
static uint32_t apply(bhtf_file *f, uint8_t *image, struct found *j)
{
    return bhtf_recover(image, f->length, j->bytes + LAYER_PAGE,
                        (size_t)j->length - LAYER_PAGE) == BHTF_ACCEPTED
        ? BHTF_ACCEPTED : stop(f, DAMAGED, j);
}

/* ---- a reader ---- */

/* Makes the image the reader's own copy, and finishes the change in it. */
static uint32_t recover_own(bhtf_file *f, struct found *j)
{
    uint8_t *own = mmap(NULL, f->length, PROT_READ | PROT_WRITE,
                        MAP_PRIVATE | MAP_NORESERVE, f->fd, 0);

    if (own == MAP_FAILED)
        return layer_fail(f, BHTF_FILE_SYSTEM, errno, "cannot be mapped");
    munmap(f->image, f->length);
    f->image = own;
    f->own = 1;
    f->recovered = 1;
    return apply(f, own, j);
}

static uint32_t read_beside(bhtf_file *f)
{
    struct found j;
    uint32_t number = find_journal(f, &j);

    if (number == BHTF_ACCEPTED && j.fd >= 0) {
        enum verdict v = judge(f, f->image, &j);

        number = v == UNFINISHED ? recover_own(f, &j)
               : v == OF_NO_USE ? BHTF_ACCEPTED : stop(f, v, &j);
    }
    forget(&j);
    return number;
}

/* With the lock on the bytes. A writer that came since may be writing to its
 * journal, and that is no damage. */
uint32_t layer_journal_read(bhtf_file *f)
{
    uint32_t number = layer_is_steady(f) ? BHTF_ACCEPTED : read_beside(f);

    return number != BHTF_ACCEPTED && !f->recovered && layer_is_steady(f)
        ? BHTF_ACCEPTED : number;
}

/* ---- a writer ---- */

/* A writer that was killed may not have flushed its mark, nor one that never
 * flushes anything: before the file is written to, all of it is on the disk. */
static uint32_t flush_found(bhtf_file *f)
{
    int error = layer_flush(f, f->journal);

    if (error == 0)
        error = layer_sync_names(f->directory, f->journal);
    return error == 0 ? BHTF_ACCEPTED
                      : layer_fail_on_journal(f, "cannot be written", error);
}

/* Finishes the change of a writer that is gone. */
static uint32_t redo(bhtf_file *f, struct found *j, int64_t deadline)
{
    const struct base after = { j->head.number[REACH],
                                j->head.number[AFTER_SUM] };
    uint32_t number = layer_lock_bytes(f, deadline);

    if (number != BHTF_ACCEPTED)
        return number;
    number = flush_found(f);
    if (number == BHTF_ACCEPTED)
        number = apply(f, f->disk, j);
    layer_unlock_bytes(f);
    if (number != BHTF_ACCEPTED)
        return number;
    f->recovered = 1;
    number = layer_finish_change(f, &after);
    return number == BHTF_ACCEPTED ? layer_journal_close(f) : number;
}

/* The journal that was found, to be written to. */
static uint32_t open_again(bhtf_file *f, const struct found *j)
{
    char shown[LAYER_SHOWN];
    struct stat about;

    f->journal = openat(f->directory, f->journal_entry,
                        O_RDWR | O_CLOEXEC | O_NOFOLLOW);
    f->room = j->length;
    if (f->journal >= 0 && fstat(f->journal, &about) == 0 &&
        about.st_dev == j->about.st_dev && about.st_ino == j->about.st_ino)
        return BHTF_ACCEPTED;
    return layer_fail(f, BHTF_FILE_SYSTEM, f->journal < 0 ? errno : ESTALE,
                      "its journal %s has an unfinished change, and cannot be "
                      "opened", layer_shown(f->journal_path, shown));
}

/* The change was another's, who may have been told that it is on the disk: it
 * is flushed whatever this handle asks for its own. */
static uint32_t finish_found(bhtf_file *f, struct found *j, int64_t deadline)
{
    uint32_t flags = f->how.flags;
    uint32_t number = open_again(f, j);

    f->how.flags &= ~BHTF_FILE_NO_SYNC;
    if (number == BHTF_ACCEPTED)
        number = redo(f, j, deadline);
    f->how.flags = flags;
    if (f->journal >= 0) /* it was refused, and stays */
        close(f->journal);
    f->journal = -1;
    return number;
}

/* What is in the file may not be on the disk yet. What cannot be removed is
 * complained of when a journal is needed. */
static uint32_t drop_found(bhtf_file *f, const struct found *j)
{
    int failed;

    do
        failed = fdatasync(f->fd);
    while (failed && errno == EINTR);
    if (failed)
        return layer_fail(f, BHTF_FILE_SYSTEM, errno,
                          "cannot be written to the disk");
    if (layer_is_entry(f->directory, f->journal_entry, j->fd))
        unlinkat(f->directory, f->journal_entry, 0);
    return BHTF_ACCEPTED;
}

uint32_t layer_journal_recover(bhtf_file *f, int64_t deadline)
{
    struct found j;
    uint32_t number = find_journal(f, &j);

    if (number == BHTF_ACCEPTED && j.fd >= 0) {
        enum verdict v = judge(f, f->disk, &j);

        number = v == UNFINISHED ? finish_found(f, &j, deadline)
               : v == OF_NO_USE ? drop_found(f, &j) : stop(f, v, &j);
    }
    forget(&j);
    return number;
}

/* ---- a person ---- */

static uint32_t state_of(enum verdict v)
{
    return v == UNFINISHED ? BHTF_FILE_UNFINISHED
         : v == OF_NO_USE ? BHTF_FILE_OF_NO_USE
         : v == FOREIGN ? BHTF_FILE_FOREIGN
         : v == NOT_THEIRS ? BHTF_FILE_OWNER : BHTF_FILE_JOURNAL;
}

static int is_sound(const uint8_t *image, size_t length)
{
    uint32_t verdict, slot;

    return bhtf_check(image, length, &verdict, &slot) == BHTF_ACCEPTED &&
           verdict == 0;
}

/* How many of the change's stretches are in the file. */
static void count_written(const uint8_t *image, const struct found *j,
                          struct bhtf_file_journal *to)
{
    const uint8_t *pairs = content_of(j) + 4, *bytes;

    to->stretches = layer_u32(content_of(j));
    bytes = pairs + 8 * (size_t)to->stretches;
    for (uint32_t i = 0; i < to->stretches; i++) {
        size_t size = layer_u32(pairs + 8 * (size_t)i + 4);

        to->written += memcmp(image + layer_u32(pairs + 8 * (size_t)i), bytes,
                              size) == 0;
        to->bytes += size;
        bytes += size;
    }
}

/* Is the file sound with the change? Asked on a copy. */
static int is_sound_after(const bhtf_file *f, const struct found *j)
{
    uint8_t mark = j->bytes[j->length - 1];
    uint8_t *own = mmap(NULL, f->length, PROT_READ | PROT_WRITE,
                        MAP_PRIVATE | MAP_NORESERVE, f->fd, 0);
    int is;

    if (own == MAP_FAILED)
        return 0;
    j->bytes[j->length - 1] = MARK;
    is = bhtf_recover(own, f->length, j->bytes + LAYER_PAGE,
                      (size_t)j->length - LAYER_PAGE) == BHTF_ACCEPTED &&
         is_sound(own, f->length);
    j->bytes[j->length - 1] = mark;
    munmap(own, f->length);
    return is;
}

static void tell(const bhtf_file *f, const uint8_t *image,
                 const struct found *j, struct bhtf_file_journal *to)
{
    to->sound = f->length > 0 && is_sound(image, f->length);
    if (j->fd < 0)
        return;
    to->state = state_of(judge(f, image, j));
    to->owner = (uint32_t)j->about.st_uid;
    to->length = (uint64_t)j->about.st_size;
    to->mark = j->mark;
    to->head = j->head_whole;
    to->content = j->content_whole &&
                  j->head.number[FILE_LENGTH] == f->length;
    if (!to->content)
        return;
    to->same = is_same_file(f, image, j);
    count_written(image, j, to);
    to->sound_after = is_sound_after(f, j);
}

/* The mark is put where it should be; then it is an unfinished change like any
 * other. */
static uint32_t finish_chosen(bhtf_file *f, struct found *j,
                              const struct bhtf_file_journal *known,
                              int64_t deadline)
{
    const uint8_t mark = MARK;
    uint32_t number;
    int error;

    if (!known->content || !known->same || known->state == BHTF_FILE_OWNER)
        return layer_fail(f, known->state > BHTF_FILE_OF_NO_USE
                          ? known->state : BHTF_FILE_JOURNAL, 0,
                          "its journal has no whole change of this file, and "
                          "cannot be finished; nothing was touched");
    number = open_again(f, j);
    if (number != BHTF_ACCEPTED)
        return number;
    error = layer_write_at(f->journal, &mark, 1, j->length - 1);
    if (error == 0)
        error = layer_flush(f, f->journal);
    close(f->journal);
    f->journal = -1;
    if (error != 0)
        return layer_fail_on_journal(f, "cannot be written", error);
    j->bytes[j->length - 1] = MARK;
    return finish_found(f, j, deadline);
}

static uint32_t set_aside(bhtf_file *f, const struct found *j,
                          struct bhtf_file_journal *to)
{
    int error = EEXIST;

    for (int i = 1; i < 1000 && error == EEXIST; i++) {
        char name[600];

        snprintf(to->aside, sizeof to->aside, ".journal.aside-%d", i);
        snprintf(name, sizeof name, "%s%s", f->entry, to->aside);
        error = layer_give_name(f->directory, j->fd, f->journal_entry, name);
    }
    if (error == 0)
        error = layer_sync_names(f->directory, f->fd);
    return error == 0 ? BHTF_ACCEPTED
                      : layer_fail_on_journal(f, "cannot be renamed", error);
}

static uint32_t choose(bhtf_file *f, uint32_t choice, struct found *j,
                       struct bhtf_file_journal *to)
{
    const uint8_t *image = f->writing ? f->disk : f->image;
    uint32_t number = find_journal(f, j);

    if (number != BHTF_ACCEPTED)
        return number;
    tell(f, image, j, to);
    if (choice == BHTF_FILE_LOOK)
        return BHTF_ACCEPTED;
    if (j->fd < 0)
        return layer_fail(f, BHTF_FILE_MISUSE, 0, "it has no journal");
    return choice == BHTF_FILE_FINISH
        ? finish_chosen(f, j, to, layer_deadline(f)) : set_aside(f, j, to);
}

uint32_t bhtf_file_recover(const char *path, uint32_t choice,
                           const struct bhtf_file_how *how,
                           struct bhtf_file_journal *journal,
                           struct bhtf_file_error *why)
{
    struct bhtf_file_how manner = { 0, 10000, NULL, NULL };
    struct found j;
    uint32_t number;
    bhtf_file *f;

    memset(journal, 0, sizeof *journal);
    memset(&j, 0, sizeof j);
    j.fd = journal->mark = -1;
    if (how != NULL)
        manner = *how;
    manner.flags = choice == BHTF_FILE_LOOK ? 0 : BHTF_FILE_WRITE;
    f = layer_open_unasked(path, &manner, why);
    if (f == NULL)
        return why->number;
    number = choose(f, choice, &j, journal);
    *why = f->why;
    forget(&j);
    bhtf_file_close(f);
    return number;
}
