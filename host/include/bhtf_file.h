/* bhtf_file.h - control point files on a disk: locks, a journal, recovery.
 *
 * The calls of bhtf.h know images in memory. These open a file as an image,
 * and change it so that a change is done whole or not at all, wherever the
 * process is killed or the power fails: see bhtf_file(3).
 *
 * The layer is C, and tested. The order of its writes and flushes is proved
 * safe, and what is written to an existing file is written by bhtf_recover,
 * which is proved: docs/FILE-LAYER.md says what is proved and what is tested.
 *
 * What answers a number answers 0 (BHTF_ACCEPTED), a number of bhtf.h for a
 * call that was refused, or one of those below. bhtf_file_error says it in
 * words, with errno.
 *
 * A new program opens files by bhtf_file_open_with, and makes them by
 * bhtf_file_make; names become keys by bhtf_file_key. What lives as long as the
 * handle's image is said to be shown, what stays the caller's to be copied.
 *
 * One thread at a time may use a handle. Several handles, also of one process
 * and on one file, are several readers and writers. A process that was forked
 * may close the handles that it has from its parent; every other call on them
 * is refused.
 */
#ifndef BHTF_FILE_H
#define BHTF_FILE_H

#include "bhtf.h"

#ifdef __cplusplus
extern "C" {
#endif

/* ---- answers besides those of bhtf.h ---- */

enum bhtf_file_answer {
    BHTF_FILE_SYSTEM = 101, BHTF_FILE_LOCKED = 102, BHTF_FILE_GIVEN_UP = 103,
    BHTF_FILE_REPLACED = 104, BHTF_FILE_UNFIT = 105, BHTF_FILE_FOREIGN = 106,
    BHTF_FILE_JOURNAL = 107, BHTF_FILE_MISUSE = 108, BHTF_FILE_BROKEN = 109,
    BHTF_FILE_OWNER = 110
};

#define BHTF_FILE_SYSTEM 101u    /* the system refused something: see errno */
#define BHTF_FILE_LOCKED 102u    /* still locked when the wait was over */
#define BHTF_FILE_GIVEN_UP 103u  /* give_up said so during a wait */
#define BHTF_FILE_REPLACED 104u  /* the name leads to another file by now */
#define BHTF_FILE_UNFIT 105u     /* not a regular file, or it has two names */
#define BHTF_FILE_FOREIGN 106u   /* an unfinished change of another file lies in
                                    this one's journal */
#define BHTF_FILE_JOURNAL 107u   /* the journal's bytes are damaged */
#define BHTF_FILE_MISUSE 108u    /* the handle is not open for this */
#define BHTF_FILE_BROKEN 109u    /* the disk failed in an earlier change: close,
                                    and open again */

#define BHTF_FILE_OWNER 110u     /* the journal belongs to one who may not write
                                    to the file */

#define BHTF_FILE_WORDS 512u     /* bytes in the longest sentence */

struct bhtf_file_error {
    uint32_t number;               /* the answer */
    int error;                     /* errno, 0 where it says nothing */
    char words[BHTF_FILE_WORDS];   /* with the file's name */
};

/* ---- opening ---- */

#define BHTF_FILE_WRITE 1u       /* to change it; else to read it */
#define BHTF_FILE_NO_SYNC 2u     /* nothing waits for the disk: a change is
                                    whole if the process is killed, but may be
                                    lost, or the file harmed, by a power cut */

#define BHTF_FILE_ANY 4u         /* bhtf_file_open_with: also a file that
                                    bhtf_count refuses */

#define BHTF_FILE_FOREVER 0xFFFFFFFFu
#define BHTF_FILE_USUAL_WAIT 10000u

/* How a file is opened. Begin with BHTF_FILE_OPTIONS, and set what is to be
 * otherwise: a later library may have more members after these, and takes the
 * shorter struct of a program that does not know them. */
struct bhtf_file_options {
    size_t size;                 /* of this struct */
    uint32_t flags;
    uint32_t wait;               /* milliseconds for all locks of one call */
    int (*give_up)(void *with);  /* asked while a lock is waited for: other
                                    than 0 ends the wait. May be NULL */
    void *with;
};

#define BHTF_FILE_OPTIONS { sizeof(struct bhtf_file_options), 0, \
                            BHTF_FILE_USUAL_WAIT, 0, 0 }

/* The same, as it was; it does not grow. */
struct bhtf_file_how {
    uint32_t flags;
    uint32_t wait;               /* milliseconds for all locks of one call */
    int (*give_up)(void *with);  /* asked while a lock is waited for: other
                                    than 0 ends the wait. May be NULL */
    void *with;
};

typedef struct bhtf_file bhtf_file;

/* Opens a file. `how` NULL is to read it and to wait 10 seconds. NULL if it
 * could not be; *why, unless it is NULL, then says why.
 *   To read: the image is that of the last whole change, and stays so until
 *   bhtf_file_pause, _refresh or _close; writers wait for that.
 *   To write: there is no other writer until bhtf_file_close; readers are kept
 *   out only while a change is brought to the file. */
bhtf_file *bhtf_file_open(const char *path, const struct bhtf_file_how *how,
                          struct bhtf_file_error *why);

/* The same with options that may grow, and it also looks at the file: one that
 * bhtf_count refuses is refused with BHTF_BAD_LENGTH (1), BHTF_BAD_VERSION (5)
 * or BHTF_BAD_HEADER (6), unless BHTF_FILE_ANY is set. Refused with
 * BHTF_FILE_MISUSE (108) for options of another size than this library knows,
 * with something set after what it knows. `options` NULL are
 * BHTF_FILE_OPTIONS. */
bhtf_file *bhtf_file_open_with(const char *path,
                               const struct bhtf_file_options *options,
                               struct bhtf_file_error *why);

/* Makes a new empty file, as bhtf_create makes an image, but without one in
 * memory. image_len is its length; 0 is what the command takes: room for 256
 * bytes of texts a slot. Of the options only BHTF_FILE_NO_SYNC counts. Refused
 * as bhtf_create and bhtf_file_create are. */
uint32_t bhtf_file_make(const char *path, uint32_t key_size, uint32_t slots,
                        uint32_t seed, size_t image_len,
                        const struct bhtf_file_options *options,
                        struct bhtf_file_error *why);

/* Makes a new file of an image's bytes, as bhtf_create made them. Its name is
 * there when all of it is on the disk, and not before. Of `how` only
 * BHTF_FILE_NO_SYNC counts. BHTF_FILE_SYSTEM with EEXIST where there is a file
 * of that name, or the journal of one that is gone. */
uint32_t bhtf_file_create(const char *path, const uint8_t *image,
                          size_t image_len, const struct bhtf_file_how *how,
                          struct bhtf_file_error *why);

/* The same for an image that is made where it will stand: zero bytes without a
 * name, for bhtf_create and the calls after it. NULL if it cannot be. `path`
 * and `why` are kept until _end, which gives the file its name, or _drop, which
 * forgets it; either frees what _begin answered. */
typedef struct bhtf_file_new bhtf_file_new;
bhtf_file_new *bhtf_file_new_begin(const char *path, size_t image_len,
                                   const struct bhtf_file_how *how,
                                   struct bhtf_file_error *why);
uint8_t *bhtf_file_new_image(bhtf_file_new *made);
uint32_t bhtf_file_new_end(bhtf_file_new *made);
void bhtf_file_new_drop(bhtf_file_new *made);

/* Makes the file's table larger: a new file with `slots` slots, with all points
 * and texts and no dead bytes, in the place of the old one, whole or not at all
 * wherever this is cut; the old one's journal is gone. image_len is its length;
 * 0 keeps the room for texts, and more slots bring more of it. Readers go on
 * with the old image until bhtf_file_refresh; other writers are waited for, as
 * the options say, and one that waited is told BHTF_FILE_REPLACED (104). The
 * home of every point is another one: a delta cannot lead a copy there, so send
 * the file as it is. Refused as bhtf_grow is: with BHTF_UNSOUND (15) where the
 * file is not sound, with BHTF_SECOND_UNFIT (21) where the table would not be
 * larger or the texts do not fit; and as bhtf_file_put is.
 *   It goes over both files at once. A program that must not wait so long
 * lends two images to bhtf_grow and the calls on a pair of bhtf.h. They work
 * on memory: what of the two is on the disk, and when, is then the program's
 * own care, for no journal covers a pair. One way is to change only the pair
 * in memory, and to bring the new image to the file by bhtf_file_put when
 * the old one is empty. */
uint32_t bhtf_file_grow(const char *path, uint32_t slots, uint32_t seed,
                        size_t image_len,
                        const struct bhtf_file_options *options,
                        struct bhtf_file_error *why);

/* Makes a new file of an open one's image, of the other version, as
 * bhtf_convert does: 2.0.0 of one of 1.0.0 to 1.0.2, and 1.0.2 of one of 2.0.0.
 * The open file stays as it is. image_len is the new file's length; 0 is that
 * of the open one, or, where the messages do not fit into that, the least that
 * holds them. The name is there when all of the file is on the disk, and not
 * before; BHTF_FILE_NO_SYNC counts as at opening. Answers as bhtf_convert and
 * bhtf_file_create do. A writer's image shows its own changes, those of a batch
 * too. */
uint32_t bhtf_file_convert(bhtf_file *file, const char *path,
                           size_t image_len);

/* Other milliseconds than those of opening, for all locks of each call that
 * follows. The words of BHTF_FILE_LOCKED go on telling those of opening. */
void bhtf_file_set_wait(bhtf_file *file, uint32_t wait);

/* Gives everything back. A batch that was not committed is undone. */
uint32_t bhtf_file_close(bhtf_file *file);

/* ---- reading ---- */

/* The image, for the calls of bhtf.h that only read. Never NULL. A writer's
 * shows its own changes and stays in its place; a reader's is void after
 * bhtf_file_pause, and may be in another place after bhtf_file_refresh. */
const uint8_t *bhtf_file_image(const bhtf_file *file, size_t *image_len);

/* A reader lets writers in. The image must not be looked at until
 * bhtf_file_refresh. */
uint32_t bhtf_file_pause(bhtf_file *file);

/* A reader lets writers in, if there are any, and takes the image of the last
 * whole change; of the new file, if it was replaced, or if a symbolic link
 * leads to another by now. */
uint32_t bhtf_file_refresh(bhtf_file *file);

/* ---- what a file holds ---- */

/* A file's numbers. */
struct bhtf_file_about {
    uint32_t version[3];
    uint32_t key_size;        /* bytes of a key */
    uint32_t slots;           /* of the table, */
    uint32_t count;           /* and how many of them have a point */
    uint64_t length;          /* bytes of the file */
    uint64_t used;            /* for texts, dead ones and headers with them, */
    uint64_t free;            /* and still to be had */
    uint32_t message_max;     /* bytes in the longest text, */
    uint32_t message_header;  /* and that a text takes besides */
};

/* Copies a file's numbers. `size` is sizeof (struct bhtf_file_about), which a
 * later library may have longer: no more bytes are written. All 0 when refused
 * with BHTF_BAD_LENGTH (1), BHTF_BAD_VERSION (5), BHTF_BAD_HEADER (6) or
 * BHTF_FILE_MISUSE (108). */
uint32_t bhtf_file_about(bhtf_file *file, struct bhtf_file_about *about,
                         size_t size);

/* *count is the number of points; 0 when refused with BHTF_BAD_LENGTH (1),
 * BHTF_BAD_VERSION (5), BHTF_BAD_HEADER (6) or BHTF_FILE_MISUSE (108). */
uint32_t bhtf_file_count(bhtf_file *file, uint32_t *count);

/* As bhtf_check. Takes up to 300 KiB of stack. */
uint32_t bhtf_file_check(bhtf_file *file, uint32_t *verdict, uint32_t *slot);

/* Makes a file's key of a name: its bytes, and zeros up to the key size, which
 * is *length. Refused with BHTF_BAD_KEY (7), with words that say how long a
 * name may be: the name is empty, or longer; nothing is ever cut. And with
 * BHTF_BAD_LENGTH (1), BHTF_BAD_VERSION (5), BHTF_BAD_HEADER (6) or
 * BHTF_FILE_MISUSE (108). */
uint32_t bhtf_file_key(bhtf_file *file, const char *name,
                       uint8_t key[BHTF_KEY_MAX], size_t *length);

/* In a file of epochs: the key of a name and an epoch. The name has at most 4
 * bytes less than a key. Refused as bhtf_file_key, and with
 * BHTF_NO_EPOCHS (23). */
uint32_t bhtf_file_epoch_key(bhtf_file *file, const char *name, uint32_t epoch,
                             uint8_t key[BHTF_KEY_MAX], size_t *length);

/* Shows a point's text where it stands in the image. *text is NULL if the point
 * has none, and not for an empty one; *length is then 0. Of a reader it is
 * there until bhtf_file_pause, _refresh or _close; of a writer until the next
 * call that changes the file. Nothing is copied. Refused as bhtf_lookup, and
 * with BHTF_FILE_MISUSE (108); *text is NULL and *length 0 when refused. */
uint32_t bhtf_file_lookup(bhtf_file *file, const uint8_t *key, size_t key_len,
                          const uint8_t **text, size_t *length);

/* Copies a point's text to `to`, which has `room` bytes. *length is the text's
 * length, also when it does not fit, which is refused with
 * BHTF_SHORT_SLICE (16) and copies nothing. A point without a text is refused
 * with BHTF_ABSENT (14), as one that is not there. Else as bhtf_file_lookup. */
uint32_t bhtf_file_copy(bhtf_file *file, const uint8_t *key, size_t key_len,
                        uint8_t *to, size_t room, size_t *length);

/* Copies a point's records that were stored by column to `to`, which has `room`
 * bytes: as bhtf_read_columns. *width is the bytes of a record, and *length of
 * all of them, also where they do not fit, which is refused with
 * BHTF_SHORT_SLICE (16) and copies nothing. Else refused as bhtf_read_columns,
 * and with BHTF_FILE_MISUSE (108); both are 0 then. */
uint32_t bhtf_file_read_columns(bhtf_file *file, const uint8_t *key,
                                size_t key_len, uint8_t *to, size_t room,
                                uint32_t *width, size_t *length);

/* A point, shown where it stands: there as long as what bhtf_file_lookup shows.
 * All 0 before the first one. */
struct bhtf_file_point {
    uint32_t slot;
    uint32_t next;           /* where bhtf_file_walk goes on */
    const uint8_t *key;
    size_t key_len;
    size_t name_len;         /* of these, without the zeros that fill it up */
    const uint8_t *text;     /* NULL: none */
    size_t text_len;
    uint32_t number;         /* 0, or BHTF_DAMAGED (11), and no text shown */
};

/* Shows the next point, in the order of slots. point->key is NULL when there is
 * none any more, and when refused with BHTF_BAD_LENGTH (1),
 * BHTF_BAD_VERSION (5), BHTF_BAD_HEADER (6) or BHTF_FILE_MISUSE (108). A change
 * of the file may move points to other slots: begin again then. */
uint32_t bhtf_file_walk(bhtf_file *file, struct bhtf_file_point *point);

/* Shows the point in a slot, as bhtf_file_select tells slots. Refused with
 * BHTF_ABSENT (14) if there is none, and with BHTF_BAD_LENGTH (1),
 * BHTF_BAD_VERSION (5), BHTF_BAD_HEADER (6) or BHTF_FILE_MISUSE (108);
 * point->key is NULL then. */
uint32_t bhtf_file_slot(bhtf_file *file, uint32_t slot,
                        struct bhtf_file_point *point);

/* Copies the slots of the points that a half legible name may be: as
 * bhtf_select, with as many ranges as a key has bytes.
 *   slots    takes their numbers, rising, `room` of them at most
 *   *found   how many there are
 * Refused as bhtf_select, with BHTF_SHORT_SLICE (16) where *found is above
 * `room`, which copies nothing, and with BHTF_FILE_MISUSE (108). Takes 4 bytes
 * of memory a slot while it runs; refused with BHTF_FILE_SYSTEM (101) where
 * they are not to be had. */
uint32_t bhtf_file_select(bhtf_file *file, const uint8_t *lowest,
                          const uint8_t *highest, size_t ranges,
                          uint32_t *slots, size_t room, uint32_t *found);

/* In a file of epochs: shows the text of a name's entry with the largest epoch
 * at most `epoch`, as bhtf_at_epoch finds it; *shown is that epoch. The name
 * has at most 4 bytes less than a key. Text and length as of bhtf_file_lookup.
 * Refused as bhtf_at_epoch, with BHTF_BAD_KEY (7) for a name that is too long,
 * and with BHTF_FILE_MISUSE (108). */
uint32_t bhtf_file_at_epoch(bhtf_file *file, const char *name, uint32_t epoch,
                            uint32_t *shown, const uint8_t **text,
                            size_t *length);

/* ---- changing ---- */

/* As bhtf_add, bhtf_delete and bhtf_compact. Accepted outside of a batch means
 * that the change is on the disk. Any other answer means that nothing changed,
 * except BHTF_FILE_SYSTEM where bhtf_file_error says that it may have. */
uint32_t bhtf_file_add(bhtf_file *file, const uint8_t *key, size_t key_len,
                       const uint8_t *data, size_t data_len, uint32_t mode);
uint32_t bhtf_file_replace(bhtf_file *file, const uint8_t *key, size_t key_len,
                           const uint8_t *data, size_t data_len);
uint32_t bhtf_file_withdraw(bhtf_file *file, const uint8_t *key,
                            size_t key_len);
uint32_t bhtf_file_delete(bhtf_file *file, const uint8_t *key, size_t key_len);
uint32_t bhtf_file_compact(bhtf_file *file);

/* As bhtf_store_columns: stores records of `width` bytes each by column, in
 * place of the point's text. Answers as bhtf_store_columns and
 * bhtf_file_add. */
uint32_t bhtf_file_store_columns(bhtf_file *file, const uint8_t *key,
                                 size_t key_len, const uint8_t *records,
                                 size_t records_len, uint32_t width);

/* A batch: the calls between begin and commit change the handle's image alone;
 * commit brings them to the file as one change, rollback undoes them all. A
 * refused call changes nothing and leaves the batch open, and so does a commit
 * that is answered other than 0; it may be tried again. */
uint32_t bhtf_file_begin(bhtf_file *file);
uint32_t bhtf_file_commit(bhtf_file *file);
uint32_t bhtf_file_rollback(bhtf_file *file);

/* In a batch: the image, to be changed by any call of bhtf.h. Commit brings
 * what has changed. NULL where no batch is open. */
uint8_t *bhtf_file_batch_image(bhtf_file *file, size_t *image_len);

/* ---- a journal that stops everybody ---- */

/* What is known of the journal beside a file. */
struct bhtf_file_journal {
    uint32_t state;      /* BHTF_FILE_NO_JOURNAL, BHTF_FILE_UNFINISHED,
                            BHTF_FILE_OF_NO_USE, or the number by which opening
                            the file is refused: BHTF_FILE_FOREIGN (106),
                            BHTF_FILE_JOURNAL (107), BHTF_FILE_OWNER (110) */
    uint32_t owner;      /* user */
    uint64_t length;     /* bytes */
    int mark;            /* 0, 0xA5, another byte, or -1: it was cut away */
    int head;            /* other than 0 if its head is whole, */
    int content;         /* and its content */
    int same;            /* the file's other bytes are those of the change */
    uint32_t stretches;  /* of the change; 0 unless the content is whole */
    uint32_t written;    /* of these, that are in the file */
    uint64_t bytes;      /* in them */
    int sound;           /* does bhtf_check find the file sound as it stands, */
    int sound_after;     /* and with the change? */
    char aside[32];      /* what follows the file's name, if set aside */
};

#define BHTF_FILE_NO_JOURNAL 0u
#define BHTF_FILE_UNFINISHED 1u  /* opening to write finishes it */
#define BHTF_FILE_OF_NO_USE 2u   /* the file is proved to be whole */

/* What is done about it. */
#define BHTF_FILE_LOOK 0u        /* nothing */
#define BHTF_FILE_FINISH 1u      /* the change is made, if all of it is there
                                    and it is this file's: else refused */
#define BHTF_FILE_SET_ASIDE 2u   /* the file stays as it is, and the journal
                                    gets another name */

/* For a person who decides; of `how` only `wait` and `give_up` count. */
uint32_t bhtf_file_recover(const char *path, uint32_t choice,
                           const struct bhtf_file_how *how,
                           struct bhtf_file_journal *journal,
                           struct bhtf_file_error *why);

/* ---- what happened ---- */

/* The last answer other than 0 of a call on this handle. Never NULL. */
const struct bhtf_file_error *bhtf_file_error(const bhtf_file *file);

/* Other than 0 if opening found an unfinished change and finished it: in the
 * file, or, for a reader, in its own image. */
int bhtf_file_recovered(const bhtf_file *file);

/* Other than 0 if the disk failed when a change was already marked as made: it
 * may be in the file, and whoever opens the file next finishes it. */
int bhtf_file_unsure(const bhtf_file *file);

#ifdef __cplusplus
}
#endif

#endif
