/* Control point files on a disk: what bhtf_file.h declares.
 *
 * A writer's image is a private mapping of the file: a call changes pages of
 * its own. What a commit brings to the file are the bytes in which these
 * differ from the file, by way of the journal. A rollback maps them anew. */
#define _DEFAULT_SOURCE /* for MAP_ANONYMOUS and MAP_NORESERVE */

#include "layer.h"

#include <errno.h>
#include <fcntl.h>
#include <limits.h>
#include <stdarg.h>
#include <stdio.h>
#include <stdlib.h>
#include <string.h>
#include <sys/mman.h>
#include <sys/stat.h>
#include <unistd.h>

/* Room for the pairs of one call; more of them, and all pages are compared. */
#define LIST_BYTES (1u << 16)

/* Files up to this length are compared as a whole, and so is a file in which a
 * batch makes more than LISTED_CALLS calls. */
#ifndef COMPARED_BYTES /* tests set another */
#define COMPARED_BYTES (1u << 22)
#endif
#define LISTED_CALLS 256

/* Runs that at most GAP equal bytes part are one: a pair takes as much. */
#define GAP 8u

/* Changed pages that a writer keeps in memory after a commit. */
#define KEPT_BYTES (1u << 24)

/* ---- words ---- */

void layer_put_error(char *words, size_t room, int error)
{
    char text[128] = "";
    size_t used = strlen(words);

    if (strerror_r(error, text, sizeof text) != 0)
        snprintf(text, sizeof text, "error %d", error);
    snprintf(words + used, room - used, ": %s", text);
}

const char *layer_shown(const char *path, char room[LAYER_SHOWN])
{
    size_t length = strlen(path);

    if (length < LAYER_SHOWN)
        return path;
    snprintf(room, LAYER_SHOWN, "...%s", path + length - (LAYER_SHOWN - 4));
    return room;
}

uint32_t layer_fail(bhtf_file *f, uint32_t number, int error,
                    const char *format, ...)
{
    struct bhtf_file_error *why = &f->why;
    char shown[LAYER_SHOWN];
    size_t used;
    va_list list;

    why->number = number;
    why->error = error;
    snprintf(why->words, sizeof why->words, "%s: ",
             layer_shown(f->path, shown));
    used = strlen(why->words);
    va_start(list, format);
    vsnprintf(why->words + used, sizeof why->words - used, format, list);
    va_end(list);
    if (error != 0)
        layer_put_error(why->words, sizeof why->words, error);
    errno = error;
    return number;
}

uint32_t layer_refused(bhtf_file *f, uint32_t number)
{
    return number == BHTF_ACCEPTED
        ? number : layer_fail(f, number, 0, "refused (%lu): %s",
                              (unsigned long)number, bhtf_message(number));
}

static uint32_t system_failed(bhtf_file *f, const char *what)
{
    return layer_fail(f, BHTF_FILE_SYSTEM, errno, "%s", what);
}

const struct bhtf_file_error *bhtf_file_error(const bhtf_file *file)
{
    return &file->why;
}

int bhtf_file_recovered(const bhtf_file *file)
{
    return file->recovered;
}

int bhtf_file_unsure(const bhtf_file *file)
{
    return file->unsure;
}

/* ---- names ---- */

/* Does a name, through its links, lead to the open file? */
static int leads_here(const bhtf_file *f, const char *name)
{
    struct stat ours, there;

    return fstat(f->fd, &ours) == 0 && stat(name, &there) == 0 &&
           ours.st_dev == there.st_dev && ours.st_ino == there.st_ino;
}

int layer_is_owner(const bhtf_file *f)
{
    return getpid() == f->owner;
}

static char *join_words(const char *a, size_t length, const char *b)
{
    char *joined = malloc(length + strlen(b) + 1);

    if (joined == NULL)
        return NULL;
    memcpy(joined, a, length);
    strcpy(joined + length, b);
    return joined;
}

/* What is after a path's last slash. */
static const char *entry_of(const char *path)
{
    const char *slash = strrchr(path, '/');

    return slash == NULL ? path : slash + 1;
}

static void forget_names(bhtf_file *f)
{
    free(f->real);
    free(f->journal_path);
    free(f->draft_path);
    if (f->directory >= 0)
        close(f->directory);
    f->real = f->journal_path = f->draft_path = NULL;
    f->directory = -1;
}

/* `real` is taken over: 0, or errno. */
static int take_names(bhtf_file *f, char *real)
{
    char *slash;

    forget_names(f);
    f->real = real;
    f->journal_path = join_words(real, strlen(real), ".journal");
    f->draft_path = join_words(real, strlen(real), ".journal.new");
    if (f->journal_path == NULL || f->draft_path == NULL)
        return ENOMEM;
    f->entry = entry_of(f->real);
    f->journal_entry = entry_of(f->journal_path);
    f->draft_entry = entry_of(f->draft_path);
    slash = strrchr(real, '/');
    if (slash == NULL)
        f->directory = layer_open_directory(".");
    else if (slash == real)
        f->directory = layer_open_directory("/");
    else {
        *slash = '\0';
        f->directory = layer_open_directory(real);
        *slash = '/';
    }
    return f->directory >= 0 ? 0 : errno;
}

/* The path from the root, or as it is where nobody knows the way to it. */
static char *absolute(const char *path)
{
    char *here = path[0] == '/' ? NULL : getcwd(NULL, 0);
    char *start, *whole;

    if (here == NULL)
        return join_words(path, strlen(path), "");
    start = join_words(here, strlen(here), "/");
    whole = start == NULL ? NULL : join_words(start, strlen(start), path);
    free(start);
    free(here);
    return whole;
}

/* ---- a handle ---- */

static bhtf_file *make_handle(const char *path, const struct bhtf_file_how *how)
{
    static const struct bhtf_file_how usual = { 0, BHTF_FILE_USUAL_WAIT, NULL,
                                                NULL };
    bhtf_file *f = calloc(1, sizeof *f);

    if (f == NULL)
        return NULL;
    f->how = how == NULL ? usual : *how;
    f->limit = f->how.wait;
    f->writing = (f->how.flags & BHTF_FILE_WRITE) != 0;
    f->fd = -1;
    f->directory = -1;
    f->journal = -1;
    f->image = &f->none;
    f->owner = getpid();
    f->path = join_words(path, strlen(path), "");
    f->name = absolute(path);
    if (f->path != NULL && f->name != NULL)
        return f;
    free(f->path);
    free(f->name);
    free(f);
    return NULL;
}

/* No call changes a file that is longer than any: it needs no bits. */
static size_t pages_of(const bhtf_file *f)
{
    return f->length > BHTF_IMAGE_MAX
        ? 0 : f->length / LAYER_PAGE + (f->length % LAYER_PAGE != 0);
}

static void unmap(bhtf_file *f)
{
    if (f->image != &f->none)
        munmap(f->image, f->length);
    if (f->disk != NULL)
        munmap(f->disk, f->length);
    if (f->work != NULL)
        munmap(f->work, f->length);
    f->image = &f->none;
    f->disk = NULL;
    f->work = NULL;
    f->own = 0;
}

static uint32_t release(bhtf_file *f)
{
    int failed = 0;

    unmap(f);
    if (f->fd >= 0) {
        layer_unlock_all(f);
        failed = close(f->fd);
    }
    f->fd = -1;
    return failed ? system_failed(f, "cannot be closed") : BHTF_ACCEPTED;
}

static void free_handle(bhtf_file *f)
{
    release(f);
    free(f->path);
    free(f->name);
    forget_names(f);
    free(f->touched);
    free(f->list);
    free(f->stage);
    free(f->runs);
    free(f);
}

static void no_memory(const char *path, struct bhtf_file_error *why)
{
    if (why == NULL)
        return;
    why->number = BHTF_FILE_SYSTEM;
    why->error = ENOMEM;
    snprintf(why->words, sizeof why->words, "%s: memory is short", path);
}

/* ---- opening ---- */

static uint32_t learn_length(bhtf_file *f)
{
    struct stat about;

    if (fstat(f->fd, &about) != 0)
        return system_failed(f, "cannot be examined");
    if (!S_ISREG(about.st_mode))
        return layer_fail(f, BHTF_FILE_UNFIT, 0, "not a regular file");
    if ((uintmax_t)about.st_size > SIZE_MAX / 2)
        return layer_fail(f, BHTF_FILE_SYSTEM, EFBIG, "cannot be mapped");
    f->length = (size_t)about.st_size;
    return BHTF_ACCEPTED;
}

/* A link that has the name by now is another program's doing. */
static uint32_t open_name(bhtf_file *f)
{
    char *real = realpath(f->name, NULL);
    int error = real == NULL ? errno : take_names(f, real);

    if (error != 0)
        return layer_fail(f, BHTF_FILE_SYSTEM, error, "cannot open");
    f->fd = openat(f->directory, f->entry, (f->writing ? O_RDWR : O_RDONLY) |
                   O_CLOEXEC | O_NONBLOCK | O_NOCTTY | O_NOFOLLOW);
    if (f->fd < 0 && errno == ELOOP)
        return layer_replaced(f);
    return f->fd >= 0 ? learn_length(f) : system_failed(f, "cannot open");
}

/* An empty file cannot be mapped; the library refuses its length. */
static uint32_t map_view(bhtf_file *f, uint8_t **view, int access, int flags)
{
    uint8_t *bytes;

    if (f->length == 0)
        return BHTF_ACCEPTED;
    bytes = mmap(NULL, f->length, access, flags, f->fd, 0);
    if (bytes == MAP_FAILED)
        return system_failed(f, "cannot be mapped");
    *view = bytes;
    return BHTF_ACCEPTED;
}

/* The file that has the name when its lock is had: one that was replaced in
 * the meantime is left for the new one, some times. */
static uint32_t open_reader(bhtf_file *f, int64_t deadline)
{
    for (int tries = 1;; tries++) {
        uint32_t number = open_name(f);

        if (number == BHTF_ACCEPTED)
            number = layer_lock_bytes(f, deadline);
        if (number == BHTF_ACCEPTED)
            number = layer_ask_name(f);
        if (number == BHTF_ACCEPTED)
            number = learn_length(f);
        if (number == BHTF_ACCEPTED)
            number = map_view(f, &f->image, PROT_READ, MAP_SHARED);
        if (number == BHTF_ACCEPTED && !f->unasked)
            number = layer_journal_read(f);
        if (number != BHTF_FILE_REPLACED || tries == 100)
            return number;
        release(f);
    }
}

static uint32_t open_writer(bhtf_file *f, int64_t deadline)
{
    const int access = PROT_READ | PROT_WRITE;
    uint32_t number = open_name(f);

    if (number == BHTF_ACCEPTED)
        number = layer_lock_writer(f, deadline);
    if (number == BHTF_ACCEPTED)
        number = layer_ask_name(f);
    if (number == BHTF_ACCEPTED)
        number = learn_length(f);
    if (number == BHTF_ACCEPTED)
        number = map_view(f, &f->disk, access, MAP_SHARED);
    if (f->unasked)
        return number;
    if (number == BHTF_ACCEPTED)
        number = layer_journal_recover(f, deadline);
    if (number == BHTF_ACCEPTED)
        number = layer_ask_names(f); /* recovery is for any number of them */
    if (number == BHTF_ACCEPTED)
        number = layer_lock_steady(f);
    if (number == BHTF_ACCEPTED)
        number = map_view(f, &f->image, access, MAP_PRIVATE | MAP_NORESERVE);
    if (number != BHTF_ACCEPTED)
        return number;
    f->own = 1;
    f->touched = calloc(pages_of(f) / 8 + 1, 1);
    return f->touched != NULL
        ? BHTF_ACCEPTED : layer_fail(f, BHTF_FILE_SYSTEM, ENOMEM, "cannot open");
}

static bhtf_file *open_handle(const char *path, const struct bhtf_file_how *how,
                              int unasked, struct bhtf_file_error *why)
{
    bhtf_file *f = make_handle(path, how);
    int64_t deadline;
    uint32_t number;

    if (f == NULL) {
        no_memory(path, why);
        return NULL;
    }
    f->unasked = unasked;
    deadline = layer_deadline(f);
    number = f->writing ? open_writer(f, deadline) : open_reader(f, deadline);
    if (number == BHTF_ACCEPTED)
        return f;
    if (why != NULL)
        *why = f->why;
    free_handle(f);
    return NULL;
}

bhtf_file *bhtf_file_open(const char *path, const struct bhtf_file_how *how,
                          struct bhtf_file_error *why)
{
    return open_handle(path, how, 0, why);
}

bhtf_file *layer_open_unasked(const char *path, const struct bhtf_file_how *how,
                              struct bhtf_file_error *why)
{
    return open_handle(path, how, 1, why);
}

uint32_t bhtf_file_close(bhtf_file *file)
{
    uint32_t journal = layer_journal_close(file);
    uint32_t number = release(file);

    free_handle(file);
    return journal != BHTF_ACCEPTED ? journal : number;
}

/* ---- reading ---- */

const uint8_t *bhtf_file_image(const bhtf_file *file, size_t *image_len)
{
    *image_len = file->paused || !layer_is_owner(file) ? 0 : file->length;
    return file->image;
}

static uint32_t for_readers(bhtf_file *f)
{
    return layer_fail(f, BHTF_FILE_MISUSE, 0, "the file is open to be written, "
                      "and this is for readers");
}

uint32_t layer_ask_process(bhtf_file *f)
{
    return layer_is_owner(f)
        ? BHTF_ACCEPTED
        : layer_fail(f, BHTF_FILE_MISUSE, 0, "another process opened it, of "
                     "which this one is a fork; close it here, and open it "
                     "again");
}

uint32_t layer_ask_shown(bhtf_file *f)
{
    uint32_t number = layer_ask_process(f);

    if (number != BHTF_ACCEPTED || !f->paused)
        return number;
    return layer_fail(f, BHTF_FILE_MISUSE, 0, "the reader is paused; refresh "
                      "it first");
}

uint32_t layer_ask_file(bhtf_file *f)
{
    uint32_t count, number = layer_ask_shown(f);

    return number == BHTF_ACCEPTED
        ? layer_refused(f, bhtf_count(f->image, f->length, &count)) : number;
}

uint32_t bhtf_file_pause(bhtf_file *file)
{
    uint32_t number = layer_ask_process(file);

    if (number != BHTF_ACCEPTED)
        return number;
    if (file->writing)
        return for_readers(file);
    if (file->own)
        unmap(file);
    layer_unlock_bytes(file);
    file->paused = 1;
    return BHTF_ACCEPTED;
}

/* Is the mapping that a reader has still that of the name's file? Then it is
 * kept. */
static uint32_t resume(bhtf_file *f, int64_t deadline)
{
    size_t before = f->length;
    uint32_t number = layer_lock_bytes(f, deadline);

    if (number == BHTF_ACCEPTED)
        number = layer_ask_name(f);
    if (number == BHTF_ACCEPTED && !leads_here(f, f->name))
        number = layer_replaced(f);
    if (number == BHTF_ACCEPTED)
        number = learn_length(f);
    if (number != BHTF_ACCEPTED)
        return number;
    if (f->length != before || f->image == &f->none) {
        size_t after = f->length;

        f->length = before;
        unmap(f);
        f->length = after;
        number = map_view(f, &f->image, PROT_READ, MAP_SHARED);
    }
    return number == BHTF_ACCEPTED ? layer_journal_read(f) : number;
}

uint32_t bhtf_file_refresh(bhtf_file *file)
{
    int64_t deadline = layer_deadline(file);
    uint32_t number;

    number = bhtf_file_pause(file);
    if (number != BHTF_ACCEPTED)
        return number;
    file->recovered = 0;
    number = file->fd >= 0 ? resume(file, deadline) : BHTF_FILE_REPLACED;
    if (number == BHTF_FILE_REPLACED) {
        release(file);
        number = open_reader(file, deadline);
    }
    if (number == BHTF_ACCEPTED)
        file->paused = 0;
    else
        layer_unlock_bytes(file);
    return number;
}

/* ---- what was changed ---- */

void layer_touch(bhtf_file *f, size_t from, size_t size)
{
    if (size == 0)
        return;
    for (size_t page = from / LAYER_PAGE;
         page <= (from + size - 1) / LAYER_PAGE; page++)
        f->touched[page / 8] |= (uint8_t)(1u << page % 8);
}

static int is_touched(const bhtf_file *f, size_t page)
{
    return f->all || f->touched[page / 8] >> page % 8 & 1;
}

static void forget_changes(bhtf_file *f)
{
    memset(f->touched, 0, pages_of(f) / 8 + 1);
    f->all = 0;
    f->calls = 0;
}

static int put_run(bhtf_file *f, size_t from, size_t size)
{
    uint8_t *at;

    if (f->run_count > 0) {
        size_t last;

        at = f->runs + 8 * f->run_count;
        last = layer_u32(at - 8) + layer_u32(at - 4);
        if (from - last <= GAP) {
            f->run_bytes += from + size - last;
            layer_put_u32(at - 4, (uint32_t)(from + size - layer_u32(at - 8)));
            return 0;
        }
    }
    if (f->run_count == f->run_room) {
        size_t room = f->run_room == 0 ? 64 : 2 * f->run_room;
        uint8_t *runs = realloc(f->runs, 8 * room);

        if (runs == NULL)
            return -1;
        f->runs = runs;
        f->run_room = room;
    }
    at = f->runs + 8 * f->run_count;
    layer_put_u32(at, (uint32_t)from);
    layer_put_u32(at + 4, (uint32_t)size);
    f->run_bytes += size;
    f->run_count++;
    return 0;
}

/* The runs of one page. */
static int put_page(bhtf_file *f, size_t start, size_t end)
{
    struct layer_run run;
    size_t at = start;

    while (layer_next_run(f->image, f->disk, &at, end, &run))
        if (put_run(f, run.from, run.size) != 0)
            return -1;
    return 0;
}

/* The first page from this one on that may have changed, or one after all;
 * passes over eight at a time. */
static size_t next_touched(const bhtf_file *f, size_t page)
{
    while (page < pages_of(f) && !is_touched(f, page))
        page = page % 8 == 0 && f->touched[page / 8] == 0 ? page + 8 : page + 1;
    return page;
}

static uint32_t find_runs(bhtf_file *f)
{
    f->run_count = 0;
    f->run_bytes = 0;
    for (size_t page = next_touched(f, 0); page < pages_of(f);
         page = next_touched(f, page + 1)) {
        size_t start = page * LAYER_PAGE;
        size_t left = f->length - start;

        if (put_page(f, start,
                     start + (left < LAYER_PAGE ? left : LAYER_PAGE)) != 0)
            return layer_fail(f, BHTF_FILE_SYSTEM, ENOMEM,
                              "nothing was changed");
    }
    return BHTF_ACCEPTED;
}

/* The image as the file is. */
static uint32_t map_anew(bhtf_file *f)
{
    forget_changes(f);
    f->kept = 0;
    if (f->length > 0 &&
        mmap(f->image, f->length, PROT_READ | PROT_WRITE, MAP_PRIVATE |
             MAP_NORESERVE | MAP_FIXED, f->fd, 0) == MAP_FAILED) {
        f->broken = 1;
        return system_failed(f, "cannot be mapped");
    }
    return BHTF_ACCEPTED;
}

/* ---- commit ---- */

static uint32_t commit(bhtf_file *f)
{
    uint32_t number = find_runs(f);

    if (number == BHTF_ACCEPTED && f->run_count > 0)
        number = layer_journal_commit(f, layer_deadline(f));
    if (number != BHTF_ACCEPTED)
        return number;
    f->batch = 0;
    f->kept += f->run_bytes + f->run_count * (uint64_t)LAYER_PAGE;
    if (f->kept > KEPT_BYTES)
        map_anew(f); /* where it cannot, the next call is told */
    else
        forget_changes(f);
    return BHTF_ACCEPTED;
}

uint32_t layer_ask_writer(bhtf_file *f)
{
    uint32_t number = layer_ask_process(f);

    if (number != BHTF_ACCEPTED)
        return number;
    if (!f->writing)
        return layer_fail(f, BHTF_FILE_MISUSE, 0,
                          "the file is open to be read only");
    if (f->broken)
        return layer_fail(f, BHTF_FILE_BROKEN, 0, "the disk failed in an "
                          "earlier change; close the file and open it again");
    return BHTF_ACCEPTED;
}

uint32_t layer_settle(bhtf_file *f)
{
    struct bhtf_file_error why;
    uint32_t number = f->batch ? BHTF_ACCEPTED : commit(f);

    if (number == BHTF_ACCEPTED || f->broken)
        return number;
    why = f->why;
    map_anew(f);
    f->why = why;
    errno = why.error;
    return number;
}

/* ---- calls ---- */

/* Pages of the working slice come when they are touched. */
uint32_t layer_lend(bhtf_file *f)
{
    if (f->list == NULL)
        f->list = malloc(LIST_BYTES);
    if (f->work == NULL && f->length > 0) {
        f->work = mmap(NULL, f->length, PROT_READ | PROT_WRITE,
                       MAP_PRIVATE | MAP_ANONYMOUS | MAP_NORESERVE, -1, 0);
        if (f->work == MAP_FAILED)
            f->work = NULL;
    }
    if (f->list == NULL || (f->work == NULL && f->length > 0))
        return layer_fail(f, BHTF_FILE_SYSTEM, ENOMEM, "nothing was changed");
    return BHTF_ACCEPTED;
}

void layer_take_back(bhtf_file *f)
{
    if (f->work != NULL)
        munmap(f->work, f->length);
    f->work = NULL;
}

static void touch_list(bhtf_file *f, uint32_t pairs)
{
    for (uint32_t i = 0; i < pairs; i++)
        layer_touch(f, layer_u32(f->list + 8 * i),
                    layer_u32(f->list + 8 * i + 4));
}

/* Will the next call list what it changes? */
static int is_listed(bhtf_file *f)
{
    if (f->length <= COMPARED_BYTES || f->calls >= LISTED_CALLS)
        f->all = 1;
    else
        f->calls++;
    return !f->all;
}

static uint32_t add_listed(bhtf_file *f, const uint8_t *key, size_t key_len,
                           const uint8_t *data, size_t data_len, uint32_t mode)
{
    uint32_t pairs, number = layer_lend(f);

    if (number != BHTF_ACCEPTED)
        return number;
    number = bhtf_add_listed(f->image, f->length, key, key_len, data, data_len,
                             mode, f->length > 0 ? f->work : &f->none,
                             f->length, f->list, LIST_BYTES, &pairs);
    touch_list(f, pairs);
    return layer_refused(f, number);
}

static uint32_t delete_listed(bhtf_file *f, const uint8_t *key, size_t key_len)
{
    uint32_t pairs, number = layer_lend(f);

    if (number != BHTF_ACCEPTED)
        return number;
    number = bhtf_delete_listed(f->image, f->length, key, key_len,
                                f->length > 0 ? f->work : &f->none, f->length,
                                f->list, LIST_BYTES, &pairs);
    touch_list(f, pairs);
    return layer_refused(f, number);
}

uint32_t bhtf_file_add(bhtf_file *file, const uint8_t *key, size_t key_len,
                       const uint8_t *data, size_t data_len, uint32_t mode)
{
    uint32_t number = layer_ask_writer(file);

    if (number != BHTF_ACCEPTED)
        return number;
    number = is_listed(file)
        ? add_listed(file, key, key_len, data, data_len, mode)
        : layer_refused(file, bhtf_add(file->image, file->length, key, key_len,
                                       data, data_len, mode));
    return number == BHTF_ACCEPTED ? layer_settle(file) : number;
}

uint32_t bhtf_file_replace(bhtf_file *file, const uint8_t *key, size_t key_len,
                           const uint8_t *data, size_t data_len)
{
    return bhtf_file_add(file, key, key_len, data, data_len, BHTF_REPLACE);
}

uint32_t bhtf_file_withdraw(bhtf_file *file, const uint8_t *key, size_t key_len)
{
    return bhtf_file_add(file, key, key_len, NULL, 0, BHTF_WITHDRAW);
}

uint32_t bhtf_file_delete(bhtf_file *file, const uint8_t *key, size_t key_len)
{
    uint32_t number = layer_ask_writer(file);

    if (number != BHTF_ACCEPTED)
        return number;
    number = is_listed(file)
        ? delete_listed(file, key, key_len)
        : layer_refused(file, bhtf_delete(file->image, file->length, key,
                                          key_len));
    return number == BHTF_ACCEPTED ? layer_settle(file) : number;
}

/* Any page may change, so that no list is asked for. */
uint32_t bhtf_file_store_columns(bhtf_file *file, const uint8_t *key,
                                 size_t key_len, const uint8_t *records,
                                 size_t records_len, uint32_t width)
{
    uint32_t number = layer_ask_writer(file);

    if (number != BHTF_ACCEPTED)
        return number;
    number = bhtf_store_columns(file->image, file->length, key, key_len,
                                records, records_len, width);
    if (number != BHTF_ACCEPTED)
        return layer_refused(file, number);
    file->all = 1;
    return layer_settle(file);
}

uint32_t bhtf_file_compact(bhtf_file *file)
{
    uint32_t number = layer_ask_writer(file);

    if (number != BHTF_ACCEPTED)
        return number;
    number = bhtf_compact(file->image, file->length);
    if (number != BHTF_ACCEPTED)
        return layer_refused(file, number);
    file->all = 1;
    return layer_settle(file);
}

/* ---- batches ---- */

uint32_t bhtf_file_begin(bhtf_file *file)
{
    uint32_t number = layer_ask_writer(file);

    if (number != BHTF_ACCEPTED)
        return number;
    if (file->batch)
        return layer_fail(file, BHTF_FILE_MISUSE, 0, "a batch is open already");
    file->batch = 1;
    return BHTF_ACCEPTED;
}

uint32_t layer_ask_batch(bhtf_file *f)
{
    uint32_t number = layer_ask_writer(f);

    if (number != BHTF_ACCEPTED || f->batch)
        return number;
    return layer_fail(f, BHTF_FILE_MISUSE, 0, "no batch is open");
}

uint32_t bhtf_file_commit(bhtf_file *file)
{
    uint32_t number = layer_ask_batch(file);

    return number == BHTF_ACCEPTED ? commit(file) : number;
}

uint8_t *bhtf_file_batch_image(bhtf_file *file, size_t *image_len)
{
    *image_len = 0;
    if (layer_ask_batch(file) != BHTF_ACCEPTED)
        return NULL;
    if (file->length > BHTF_IMAGE_MAX) {
        layer_refused(file, BHTF_BAD_LENGTH);
        return NULL;
    }
    file->all = 1;
    *image_len = file->length;
    return file->image;
}

uint32_t bhtf_file_rollback(bhtf_file *file)
{
    uint32_t number = layer_ask_batch(file);

    if (number != BHTF_ACCEPTED)
        return number;
    file->batch = 0;
    return map_anew(file);
}
