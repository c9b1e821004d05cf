/* The file layer's parts: what bhtf_file.h declares is made of them. */
#ifndef LAYER_H
#define LAYER_H

#include "bhtf_file.h"

#include <stdint.h>
#include <sys/types.h>

/* The layer's own page, whatever the system's is. */
#define LAYER_PAGE 4096u

struct bhtf_file {
    struct bhtf_file_how how;
    uint32_t limit;       /* of a wait, as it was asked for */
    struct bhtf_file_error why;
    pid_t owner;          /* the process that opened it */
    char *path;           /* as it was given */
    char *name;           /* that, wherever the process goes */
    char *real;           /* without symbolic links */
    int directory;        /* in which that stands */
    const char *entry;    /* its name there */
    char *journal_path;   /* beside it */
    const char *journal_entry;
    char *draft_path;     /* of a journal that is being made, where none can be
                             made without a name */
    const char *draft_entry;
    int writing;
    int unasked;          /* its journal is not asked */
    int fd;
    size_t length;
    uint8_t *image;       /* what calls see: a writer's own copy */
    uint8_t *disk;        /* a writer's view of the file itself */
    int own;              /* the image is this process's copy */
    uint8_t none;         /* what image points to when the file is empty */
    int held;             /* the lock on the bytes is held */
    int paused;
    int batch;
    int broken;
    int unsure;           /* whether the last change is in the file */
    int recovered;
    /* what was changed and not yet committed */
    uint8_t *touched;     /* a bit for each page */
    int all;              /* any page may be */
    int calls;            /* that listed what they changed */
    uint64_t kept;        /* bytes of pages changed since it was mapped */
    uint8_t *work;        /* the listed calls' working slice */
    uint8_t *list;
    /* the journal */
    int journal;          /* descriptor, -1: there is none */
    uint64_t room;        /* its length */
    int drafted;          /* it has its draft's name */
    int named;            /* its name is on the disk */
    int unmarked;         /* its mark is 0, but perhaps not yet on the disk */
    uint8_t *stage;       /* where it is put together */
    uint8_t *runs;        /* pairs of offset and length, as the journal has */
    size_t run_count;
    size_t run_room;
    uint64_t run_bytes;
    uint64_t reach;       /* how many bytes of the file are in its sum */
    uint64_t sum;
};

/* ---- layer.c ---- */

/* Notes an answer, its errno (or 0) and words; answers it. */
uint32_t layer_fail(bhtf_file *f, uint32_t number, int error,
                    const char *format, ...);

/* Puts ": " and what errno means after the words that are there. */
void layer_put_error(char *words, size_t room, int error);

/* A path in words: of a long one, its end. */
#define LAYER_SHOWN 100u
const char *layer_shown(const char *path, char room[LAYER_SHOWN]);

/* Is this the process that opened it, and not one that was forked since? Where
 * that one closes the handle, locks and journal are left to the first. */
int layer_is_owner(const bhtf_file *f);

/* An answer of bhtf.h, noted in its own words. */
uint32_t layer_refused(bhtf_file *f, uint32_t number);

/* 0, or BHTF_FILE_MISUSE and its like after a note: is this its process; and is
 * no reader paused; or is it open to be written; and is a batch open? */
uint32_t layer_ask_process(bhtf_file *f);
uint32_t layer_ask_shown(bhtf_file *f);
uint32_t layer_ask_file(bhtf_file *f); /* and does bhtf_count accept it? */
uint32_t layer_ask_writer(bhtf_file *f);
uint32_t layer_ask_batch(bhtf_file *f);

/* The slices that a listed call is lent: 0, or BHTF_FILE_SYSTEM after a note.
 * The working slice is given back when it is of no more use. */
uint32_t layer_lend(bhtf_file *f);
void layer_take_back(bhtf_file *f);

/* So many bytes of the image may have changed. */
void layer_touch(bhtf_file *f, size_t from, size_t size);

/* Behind a change of the image: what is not in a batch is brought to the file,
 * or undone. */
uint32_t layer_settle(bhtf_file *f);

/* ---- layer_runs.c ---- */

/* A run of bytes in which two images differ. */
struct layer_run {
    size_t from;
    size_t size;
};

/* The next one from *at on and before `end`; *at is then after it. 0 if there
 * is none. */
int layer_next_run(const uint8_t *a, const uint8_t *b, size_t *at, size_t end,
                   struct layer_run *run);

/* ---- layer_name.c ---- */

/* A descriptor, or -1 with errno. */
int layer_open_directory(const char *path);

/* Puts a directory's names on the disk, where an open file of it stands: 0, or
 * errno. */
int layer_sync_names(int directory, int file);

/* Gives an open file, which has no name or that of its draft, a name that no
 * file has: 0, or errno. */
int layer_give_name(int directory, int fd, const char *draft, const char *name);

/* A new file without a name: a descriptor, or -1 with errno, which is
 * EOPNOTSUPP where there are none. */
int layer_open_nameless(int directory, mode_t mode);

/* Has every byte its place on the disk, for certain? */
int layer_has_no_holes(int fd, uint64_t length);

/* Is this the entry of the open file? A symbolic link to it is not. */
int layer_is_entry(int directory, const char *name, int fd);

/* Has the open file still its entry? 0 or BHTF_FILE_REPLACED. */
uint32_t layer_ask_name(bhtf_file *f);
uint32_t layer_replaced(bhtf_file *f);

/* And no other? 0 or BHTF_FILE_UNFIT. */
uint32_t layer_ask_names(bhtf_file *f);

/* ---- layer_options.c ---- */

/* The options as the library keeps them; NULL are the usual ones. 0, or
 * BHTF_FILE_MISUSE after a note in *why. */
uint32_t layer_take_options(const char *path,
                            const struct bhtf_file_options *options,
                            struct bhtf_file_how *how,
                            struct bhtf_file_error *why);

/* ---- layer_create.c ---- */

/* As bhtf_file_new_begin, for a file that takes the place of one that is open
 * to be written. */
bhtf_file_new *layer_new_over(const bhtf_file *f, size_t image_len,
                              struct bhtf_file_error *why);

/* ---- layer_lock.c: 0, or the number after a note ---- */

/* Milliseconds of a clock that is never set, and when a wait is over. */
int64_t layer_now(void);
int64_t layer_deadline(const bhtf_file *f);

uint32_t layer_lock_writer(bhtf_file *f, int64_t deadline);

/* A writer that knows the file to be whole tells so as long as it has it open;
 * is there one? With the lock on the bytes, what is mapped is whole then. */
uint32_t layer_lock_steady(bhtf_file *f);
int layer_is_steady(const bhtf_file *f);
uint32_t layer_lock_bytes(bhtf_file *f, int64_t deadline);
void layer_unlock_bytes(bhtf_file *f);

/* Before the file is closed: gives all back, though a forked process may have
 * it open too. */
void layer_unlock_all(bhtf_file *f);

/* ---- layer_sum.c ---- */

/* XXH64, as Yann Collet published it. */
uint64_t layer_xxh64(const uint8_t *bytes, size_t length, uint64_t seed);

/* The sum of an image's pages, from that of a byte to that before another. */
uint64_t layer_sum(const uint8_t *image, size_t length, uint64_t from,
                   uint64_t to);

/* That of the pages that stretches meet, with the stretches' bytes as they are
 * or taken as 0. `pairs` are as in a journal. */
uint64_t layer_sum_met(const uint8_t *image, size_t length,
                       const uint8_t *pairs, size_t count, int masked);

/* ---- layer_bytes.c ---- */

uint32_t layer_u32(const uint8_t *at);
void layer_put_u32(uint8_t *at, uint32_t value);

/* ---- layer_owner.c ---- */

/* Could the owner of a file beside it have written to the open file? */
struct stat;
int layer_may_write(const bhtf_file *f, const struct stat *other);

/* ---- layer_recover.c: 0, or the number after a note ---- */

/* A reader: applies an unfinished change to its own copy of the image. */
uint32_t layer_journal_read(bhtf_file *f);

/* A writer, which has the writer's lock: finishes an unfinished change, and
 * removes a journal that is proved to be of no use. */
uint32_t layer_journal_recover(bhtf_file *f, int64_t deadline);

/* ---- layer_journal.c: 0, or the number after a note ---- */

/* A writer: brings f->runs, the bytes in which f->image differs from f->disk,
 * to the file. */
uint32_t layer_journal_commit(bhtf_file *f, int64_t deadline);

/* Removes the journal, if this handle made one. */
uint32_t layer_journal_close(bhtf_file *f);

/* A handle on a file whose journal is not asked yet, to be freed by
 * bhtf_file_close; NULL after a note in *why. */
bhtf_file *layer_open_unasked(const char *path, const struct bhtf_file_how *how,
                              struct bhtf_file_error *why);

#endif
