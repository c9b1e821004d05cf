/* bhtf.h - the control point file: a hash table of named points in one image.
 *
 * An image is a whole file in memory. Every call takes the image and its
 * length, and answers a number: BHTF_ACCEPTED (0), or the number of the first
 * question that was answered "no". A refused call changes no byte of the
 * image, a list or a journal, and nothing but the results it hands back through
 * pointers; what a working slice holds after any call is of no use.
 *
 * What the caller must see to:
 *
 * - A pointer with a length stands for that many bytes, readable and, where
 *   it is not to const, writable. What has the length 0 may be NULL, except
 *   for the image.
 * - Pointers to results (uint32_t *, size_t *) are not NULL and are aligned.
 * - What a call writes (what is not const, and the results) overlaps nothing
 *   else that is handed to the same call. Two slices that are only read may
 *   overlap: lookup's key may be a part of its image.
 * - From the start of a call to its end nobody else writes to what it was
 *   handed, and nobody else reads what it writes. The calls take no lock;
 *   bhtf_file.h does, and keeps files on a disk (see bhtf_file(3)).
 *
 * The calls allocate nothing, keep nothing between calls and always return.
 *
 * They are proved, except bhtf_image_len, bhtf_message_max, bhtf_message_header
 * and bhtf_message, which are plain C: for any bytes of an image each call
 * answers the number, and leaves the bytes, that its definition gives.
 * docs/PROMISES.md leads from each call to its definition and its code; the
 * contracts of these exports stand in crates/station/src/lib.rt.
 */
#ifndef BHTF_H
#define BHTF_H

#include <stddef.h>
#include <stdint.h>

#ifdef __cplusplus
extern "C" {
#endif

/* ---- limits ---- */

#define BHTF_PAGE 4096u             /* an image's length is a multiple of it */
#define BHTF_IMAGE_MAX 1073741824u  /* bytes in the longest image */
#define BHTF_KEY_MAX 32u            /* bytes in the longest key */
#define BHTF_SLOTS_MAX 1048576u     /* slots in the largest table */
#define BHTF_SLOTS_DEFAULT 5507u    /* what create makes of 0 slots */
#define BHTF_MESSAGE_MAX 16777215u  /* bytes in the longest message, */
#define BHTF_MESSAGE_HEADER 4u      /* and that a message takes besides, in
                                       files of version 1: bhtf_message_max and
                                       bhtf_message_header ask the file */
#define BHTF_MESSAGE_MAX_2 1073741823u /* the same in files of version 2.0.0, */
#define BHTF_MESSAGE_HEADER_2 5u       /* which bhtf_convert makes */
#define BHTF_PAIR 8u                /* bytes that a pair takes in a list */
#define BHTF_WIDTH_MAX 64u          /* bytes in the widest record */
#define BHTF_SLOT_NUMBER 4u         /* bytes that a slot takes in a list */
#define BHTF_MARKED 0xA5u           /* the mark of a journal that is to be
                                       written to its image */

/* ---- numbers by name ----
 *
 * The same numbers as types: a debugger then shows an answer by its name, and a
 * switch over (enum bhtf_answer)number can be checked by the compiler. The
 * calls answer uint32_t, and the macros below say what each number means. */

enum bhtf_mode {
    BHTF_NEW = 1, BHTF_REPLACE = 2, BHTF_APPEND = 3, BHTF_WITHDRAW = 4
};

enum bhtf_answer {
    BHTF_ACCEPTED = 0, BHTF_BAD_LENGTH = 1, BHTF_BAD_KEY_SIZE = 2,
    BHTF_BAD_SLOTS = 3, BHTF_TABLE_TOO_BIG = 4, BHTF_BAD_VERSION = 5,
    BHTF_BAD_HEADER = 6, BHTF_BAD_KEY = 7, BHTF_BAD_MODE = 8, BHTF_PRESENT = 9,
    BHTF_TABLE_FULL = 10, BHTF_DAMAGED = 11, BHTF_TOO_LONG = 12,
    BHTF_NO_ROOM = 13, BHTF_ABSENT = 14, BHTF_UNSOUND = 15,
    BHTF_SHORT_SLICE = 16, BHTF_BAD_JOURNAL = 17, BHTF_UNRECOVERABLE = 18,
    BHTF_BAD_RECORDS = 19, BHTF_TOO_LONG_FOR_1 = 20,
    BHTF_SECOND_UNFIT = 21, BHTF_BAD_RANGES = 22,
    BHTF_NO_EPOCHS = 23
};

enum bhtf_verdict {
    BHTF_SOUND = 0, BHTF_SLOT_FAILS = 1, BHTF_COUNT_FAILS = 2
};

/* ---- modes of bhtf_add ---- */

#define BHTF_NEW 1u       /* the key must be absent */
#define BHTF_REPLACE 2u   /* new data in place of the old */
#define BHTF_APPEND 3u    /* new data after the old */
#define BHTF_WITHDRAW 4u  /* the message goes, the key stays */

/* ---- answers ---- */

#define BHTF_ACCEPTED 0u
#define BHTF_BAD_LENGTH 1u     /* image not a multiple of a page, or not from
                                  one page to BHTF_IMAGE_MAX bytes long */
#define BHTF_BAD_KEY_SIZE 2u   /* create: key size not from 1 to 32 */
#define BHTF_BAD_SLOTS 3u      /* create: more than BHTF_SLOTS_MAX slots */
#define BHTF_TABLE_TOO_BIG 4u  /* create: the table does not fit */
#define BHTF_BAD_VERSION 5u    /* no such file, or a version other than 1.0.0 to
                                  1.0.2 and 2.0.0 */
#define BHTF_BAD_HEADER 6u     /* the header's numbers do not fit */
#define BHTF_BAD_KEY 7u        /* key not of the key size, or all zero */
#define BHTF_BAD_MODE 8u       /* mode not from 1 to 4 */
#define BHTF_PRESENT 9u        /* mode 1, and the key is there already; growth:
                                  both images hold the key */
#define BHTF_TABLE_FULL 10u    /* no slot for another key */
#define BHTF_DAMAGED 11u       /* the key's message, or the count, is damaged;
                                  a length of 0 is no damage */
#define BHTF_TOO_LONG 12u      /* message above bhtf_message_max bytes */
#define BHTF_NO_ROOM 13u       /* no space left in the image for the message;
                                  convert: in the target, for all of them */
#define BHTF_ABSENT 14u        /* the key is not there: lookup, delete, and add
                                  in mode 4, where it is asked after 8 */
#define BHTF_UNSOUND 15u       /* compact, convert, grow: bhtf_check does not
                                  say sound */
#define BHTF_SHORT_SLICE 16u   /* list shorter than BHTF_PAIR, or working slice
                                  than the image; asked before 1. Select: list
                                  too short for all slots; asked last */
#define BHTF_BAD_JOURNAL 17u   /* journal too short for what would change, or
                                  its mark is not 0; asked last */
#define BHTF_UNRECOVERABLE 18u /* recover: the journal is empty, or marked and
                                  its content or a pair does not fit */
#define BHTF_BAD_RECORDS 19u   /* records: width not from 1 to
                                  BHTF_WIDTH_MAX, bytes not a multiple of it,
                                  or slice too short */
#define BHTF_TOO_LONG_FOR_1 20u /* convert to 1.0.2: a message above
                                  BHTF_MESSAGE_MAX bytes */
#define BHTF_SECOND_UNFIT 21u  /* growth: the new image is not one into which
                                  the old one may grow; later: it has another
                                  key size or version, or no sound header */
#define BHTF_BAD_RANGES 22u    /* select: not as many ranges as a key has bytes,
                                  or a lowest byte above its highest */
#define BHTF_NO_EPOCHS 23u     /* at epoch: the file's keys have fewer than 5
                                  bytes */

/* ---- verdicts of bhtf_check ---- */

#define BHTF_SOUND 0u
#define BHTF_SLOT_FAILS 1u
#define BHTF_COUNT_FAILS 2u

/* ---- calls ---- */

/* Makes an empty file of the whole image: all image_len bytes are written.
 * key_size: bytes in every key. slots: keys that the table can hold, 0 for
 * BHTF_SLOTS_DEFAULT. seed: start of the numbers that scatter keys over the
 * table; files of one seed, key size, slots and length are equal. Their version
 * is 1.0.2, which libraries before this one refuse: see bhtf_add. Refused with
 * BHTF_BAD_LENGTH (1) to BHTF_TABLE_TOO_BIG (4). */
uint32_t bhtf_create(uint8_t *image, size_t image_len, uint32_t key_size,
                     uint32_t slots, uint32_t seed);

/* Says how long an image must be for a table and its messages: *image_len is
 * the least length that bhtf_create takes for this key size and these slots
 * (0 for BHTF_SLOTS_DEFAULT), and that has room for `messages` messages with
 * `bytes` bytes in all of them. Each takes BHTF_MESSAGE_HEADER bytes besides;
 * one of version 2.0.0 takes a byte more. Refused with BHTF_BAD_KEY_SIZE (2)
 * and BHTF_BAD_SLOTS (3), and with BHTF_BAD_LENGTH (1) if it would be longer
 * than BHTF_IMAGE_MAX; *image_len is 0 then. */
uint32_t bhtf_image_len(uint32_t key_size, uint32_t slots, uint32_t messages,
                        uint64_t bytes, size_t *image_len);

/* Stores data under a key; data of length 0 is an empty message, which lookup
 * tells from none. An absent key is added, except by BHTF_WITHDRAW.
 *   BHTF_NEW       is refused with BHTF_PRESENT (9) where the key is there;
 *   BHTF_REPLACE   writes data in place of the message, over the old bytes
 *                  where it fits and into new space where not; data of length
 *                  0 fits wherever the key has, or had, a message;
 *   BHTF_APPEND    copies message and data into new space; data of length 0
 *                  changes nothing, and enters an absent key without a message;
 *   BHTF_WITHDRAW  makes the message none and keeps the key, and the space for
 *                  a later BHTF_REPLACE; ignores data; refused with
 *                  BHTF_ABSENT (14) where the key is not there.
 * An empty message in new space takes bhtf_message_header bytes, so that
 * BHTF_NO_ROOM (13) can refuse it. Space once taken is not handed out again
 * before bhtf_compact, except by BHTF_REPLACE to the same key.
 * Versions: the first empty message stored makes a file of version 1.0.0 or
 * 1.0.1 one of 1.0.2; no other call after create changes the version, and
 * none that of a file of 2.0.0.
 * Libraries before this one know no empty message and refuse a file of 1.0.2,
 * with every call, with BHTF_BAD_VERSION (5). So renew the stations' library
 * first; until all have it, send them files that an earlier library created,
 * and store no empty message in those.
 * Reads at most N slots of the table. Refused with BHTF_BAD_LENGTH (1) and
 * BHTF_BAD_VERSION (5) to BHTF_ABSENT (14). */
uint32_t bhtf_add(uint8_t *image, size_t image_len, const uint8_t *key,
                  size_t key_len, const uint8_t *data, size_t data_len,
                  uint32_t mode);

/* Takes a key out of the table and withdraws its message; other keys may move
 * to other slots. Refused with BHTF_BAD_LENGTH (1), BHTF_BAD_VERSION (5),
 * BHTF_BAD_HEADER (6), BHTF_BAD_KEY (7), BHTF_ABSENT (14) and
 * BHTF_DAMAGED (11).
 * Time: in a table of N slots made by these calls it inspects at most 2N - 1
 * slots. In an arbitrary full table, as a file made by others may hold (a
 * sound one too), it can be N * N - N + 1: some 4 * 10^9 at 65,536 slots, some
 * 10^12 at 1,048,576, which is hours. In a full table it is exactly N + the
 * sum of displacements before - the sum after; a key's displacement is how
 * many slots after the one that its hash names it stands, wrapping. */
uint32_t bhtf_delete(uint8_t *image, size_t image_len, const uint8_t *key,
                     size_t key_len);

/* Finds a key's message: *offset is the place of its first byte in the image,
 * *length its length. An empty message is an offset other than 0 with length
 * 0. Both are 0 when the key has no message, and when refused. Refused with
 * BHTF_BAD_LENGTH (1), BHTF_BAD_VERSION (5), BHTF_BAD_HEADER (6),
 * BHTF_BAD_KEY (7), BHTF_ABSENT (14) and BHTF_DAMAGED (11). */
uint32_t bhtf_lookup(const uint8_t *image, size_t image_len,
                     const uint8_t *key, size_t key_len, uint32_t *offset,
                     uint32_t *length);

/* ---- how long a search was ----
 *
 * The three calls above, with the same numbers and bytes; and in *slots_read
 * how many slots of the table the search for the key read, the one where it
 * ended among them. It is 0 when the call was refused before the search, with
 * BHTF_BAD_LENGTH (1), BHTF_BAD_VERSION (5), BHTF_BAD_HEADER (6),
 * BHTF_BAD_KEY (7) or BHTF_BAD_MODE (8); refused after it, with
 * BHTF_PRESENT (9) to BHTF_ABSENT (14), the call tells it too.
 * For a timing budget: the number is never above N, the slots of the table.
 * In a sound file (see bhtf_check), and in every file that these calls made
 * of one or of a created one, it is also at most C + 1, where C is what
 * bhtf_count says before the call. So a search takes at most the smaller of
 * the two times what a slot costs on the station. What delete does besides,
 * to close the gap in the table, is not counted: its bound is above. */

uint32_t bhtf_add_slots(uint8_t *image, size_t image_len, const uint8_t *key,
                        size_t key_len, const uint8_t *data, size_t data_len,
                        uint32_t mode, uint32_t *slots_read);

uint32_t bhtf_delete_slots(uint8_t *image, size_t image_len,
                           const uint8_t *key, size_t key_len,
                           uint32_t *slots_read);

uint32_t bhtf_lookup_slots(const uint8_t *image, size_t image_len,
                           const uint8_t *key, size_t key_len,
                           uint32_t *offset, uint32_t *length,
                           uint32_t *slots_read);

/* ---- the whole file ---- */

/* *count is the number of keys held; 0 when refused with BHTF_BAD_LENGTH (1),
 * BHTF_BAD_VERSION (5) or BHTF_BAD_HEADER (6). */
uint32_t bhtf_count(const uint8_t *image, size_t image_len, uint32_t *count);

/* Finds the first key in slot `from` or above: *slot is its slot and
 * *key_offset the place of its first byte in the image. *key_offset is 0 when
 * there is none, and when refused with BHTF_BAD_LENGTH (1),
 * BHTF_BAD_VERSION (5) or BHTF_BAD_HEADER (6). To see every key, begin
 * with 0 and go on from *slot + 1 until *key_offset is 0. */
uint32_t bhtf_walk(const uint8_t *image, size_t image_len, uint32_t from,
                   uint32_t *slot, uint32_t *key_offset);

/* Lists the keys that a half legible name may be: every slot with a key whose
 * every byte lies in its range, from lowest[i] to highest[i], both included.
 *   lowest, highest  as many bytes as a key has. A byte that can be read has
 *                    itself for both, one that cannot has 0 and 255.
 *   list             at least BHTF_SLOT_NUMBER bytes for each slot of the
 *                    table (the number at offset 16 of the image). It takes
 *                    from its start the slots' numbers, each once, rising, 4
 *                    bytes each, the most significant byte first. The rest of
 *                    the list stays as it was.
 *   *found           how many there are; 0 when refused.
 * The key of slot i stands at 2,048 + i * (key size + 4) of the image. With
 * lowest and highest equal everywhere a sound image has at most one such key,
 * that which bhtf_lookup finds. An empty slot is never listed.
 * Refused with BHTF_BAD_LENGTH (1), BHTF_BAD_VERSION (5) and
 * BHTF_BAD_HEADER (6), then with BHTF_BAD_RANGES (22) and
 * BHTF_SHORT_SLICE (16). Time: one pass over the table; of a key no byte is
 * read after the first that lies outside its range, and none before the first
 * or after the last range that is not 0 to 255. */
uint32_t bhtf_select(const uint8_t *image, size_t image_len,
                     const uint8_t *lowest, size_t lowest_len,
                     const uint8_t *highest, size_t highest_len, uint8_t *list,
                     size_t list_len, uint32_t *found);

/* In a file of epochs the last 4 bytes of a key are a number, most significant
 * byte first, after the name: the entry of the name (key size less 4 bytes, any
 * of them zero) with the largest epoch at most `epoch`; in a damaged table with
 * two of that epoch the one in the lower slot.
 *   *shown             its epoch
 *   *offset, *length   its message, as bhtf_lookup tells it: both 0 without an
 *                      active one
 * All are 0 when refused. Refused with BHTF_BAD_LENGTH (1),
 * BHTF_BAD_VERSION (5) and BHTF_BAD_HEADER (6), then with BHTF_NO_EPOCHS (23)
 * and BHTF_BAD_KEY (7), with BHTF_ABSENT (14) if no entry of the name has such
 * an epoch, and with BHTF_DAMAGED (11) last, if the entry's message is damaged.
 * Time: one pass over the table. */
uint32_t bhtf_at_epoch(const uint8_t *image, size_t image_len,
                       const uint8_t *name, size_t name_len, uint32_t epoch,
                       uint32_t *shown, uint32_t *offset, uint32_t *length);

/* Says whether the image is sound: *verdict is BHTF_SOUND when every key is
 * found by its search in its own slot, every message is whole, none shares a
 * byte with another (its header counts, and a withdrawn message that a key
 * keeps is one too), and the count is right. BHTF_SLOT_FAILS names in *slot the
 * lowest slot where not; of two that share bytes that is the higher one.
 * BHTF_COUNT_FAILS says that only the count is wrong. Refused with
 * BHTF_BAD_LENGTH (1), BHTF_BAD_VERSION (5) and BHTF_BAD_HEADER (6). Time: as
 * long as the table and the messages are; but each key is searched, so a
 * damaged full table can take N * N slots.
 * Stack: up to 300 KiB (307,200 bytes), which a small thread may not have;
 * bhtf_compact and its forms take more, the other calls take little. */
uint32_t bhtf_check(const uint8_t *image, size_t image_len,
                    uint32_t *verdict, uint32_t *slot);

/* Gives the space of dead messages back: moves all active messages down, in the
 * order of their offsets, without gaps from the data offset on, lowers the next
 * free offset, zeroes every byte from there to the image's end, and sets the
 * offset of each withdrawn message to 0. Keys stay in their slots; offsets that
 * bhtf_lookup gave before are void. Refused with BHTF_BAD_LENGTH (1),
 * BHTF_BAD_VERSION (5) and BHTF_BAD_HEADER (6), and with BHTF_UNSOUND (15)
 * where bhtf_check does not say sound; then no byte changes.
 * Time: a check, one pass over the slots, and, where something is dead, about
 * one more for every 131,072 texts; the bytes that move.
 * Stack: up to 1,344 KiB (1,376,256 bytes), which a small thread may not
 * have. */
uint32_t bhtf_compact(uint8_t *image, size_t image_len);

/* ---- files of version 2.0.0 ----
 *
 * They are as those of version 1, except for the messages: these may have up to
 * BHTF_MESSAGE_MAX_2 bytes, and take BHTF_MESSAGE_HEADER_2 bytes besides. All
 * calls take both. Libraries before this one refuse a file of 2.0.0, with every
 * call, with BHTF_BAD_VERSION (5): renew the stations' library before they get
 * one. */

/* Makes of a sound image one of the other version in a second slice: of 1.0.0,
 * 1.0.1 or 1.0.2 one of 2.0.0, which no other call makes, and of 2.0.0 one of
 * 1.0.2. All of the target is written. Keys, their slots and their messages are
 * the same; the messages stand as bhtf_compact leaves them, and every byte that
 * has no meaning is 0. The two lengths need not be equal.
 * The slices must not overlap. The source stays as it is.
 * Refused with BHTF_BAD_LENGTH (1) for the source or the target (the number
 * does not say which of them), then for the source with BHTF_BAD_VERSION (5)
 * and BHTF_BAD_HEADER (6), with BHTF_UNSOUND (15) where bhtf_check does not say
 * sound, with BHTF_TOO_LONG_FOR_1 (20) where the target would be of 1.0.2 and a
 * key has a message that is longer than BHTF_MESSAGE_MAX bytes; and with
 * BHTF_NO_ROOM (13) where the messages do not fit into the target: it needs the
 * source's data offset (the number at offset 48) and the length of each message
 * with its header. Refused, it leaves the target as it was.
 * Time: a check, some passes over the slots, about one more for every 131,072
 * texts, and the bytes that are written. Stack: up to 1,344 KiB (1,376,256
 * bytes), which a small thread may not have. */
uint32_t bhtf_convert(const uint8_t *source, size_t source_length,
                      uint8_t *target, size_t target_length);

/* The bytes in the longest message that the image's version allows, and those
 * that a message takes besides; 0 where bhtf_count would refuse the image. */
uint32_t bhtf_message_max(const uint8_t *image, size_t image_len);
uint32_t bhtf_message_header(const uint8_t *image, size_t image_len);

/* ---- what a call changed ----
 *
 * Add, delete and compact, with the same numbers and bytes, which also list
 * what they changed, so that a copy of the image elsewhere is refreshed with
 * little to send: copying the listed stretches of the image into a copy of it
 * as it was before the call gives it as it is now.
 *   work    a working slice of at least image_len bytes, for what the call
 *           itself has to remember. It need not be cleared before.
 *   list    at least BHTF_PAIR bytes. It takes from its start a pair for each
 *           unbroken run of bytes whose value changed, sorted by offset: the
 *           offset in the image, then the length, 4 bytes each, the most
 *           significant byte first. Bytes that were written with the value that
 *           they had are in no pair, and two pairs never touch. The rest of the
 *           list stays as it was.
 *   *pairs  how many pairs were written: 0 when nothing changed, and when
 *           refused.
 * A shorter working slice or list is refused with BHTF_SHORT_SLICE (16), before
 * any other question. Where the pairs do not fit, the list is the single pair
 * 0, image_len, and the whole image is to be sent. A list of 4 * image_len
 * bytes always suffices, since there are at most image_len / 2 pairs. An add or
 * a delete needs few as a rule: it changes some numbers of the header, slots,
 * and bytes of the message. A compaction may need one for every few bytes of
 * what it moves.
 * Time: an add or a delete takes the plain call's and a second search, and
 * keeps and compares only where it may write: the header, its slots (a delete's
 * are those from the key's up to the next empty one) and its message; the
 * image's length does not matter. bhtf_compact_listed copies the image once and
 * reads it twice. Stack: as the plain call, so bhtf_compact_listed up to
 * 1,344 KiB. */

uint32_t bhtf_add_listed(uint8_t *image, size_t image_len, const uint8_t *key,
                         size_t key_len, const uint8_t *data, size_t data_len,
                         uint32_t mode, uint8_t *work, size_t work_len,
                         uint8_t *list, size_t list_len, uint32_t *pairs);

uint32_t bhtf_delete_listed(uint8_t *image, size_t image_len,
                            const uint8_t *key, size_t key_len, uint8_t *work,
                            size_t work_len, uint8_t *list, size_t list_len,
                            uint32_t *pairs);

uint32_t bhtf_compact_listed(uint8_t *image, size_t image_len, uint8_t *work,
                             size_t work_len, uint8_t *list, size_t list_len,
                             uint32_t *pairs);

/* ---- where two images differ ----
 *
 * The next run of bytes in which two images differ, from a place on. Asked for
 * from 0 on, and then from the end of each run on, it tells the runs that the
 * calls above list, one at a time and without a list:
 *   size_t at = 0, size;
 *   while (at = bhtf_next_change(before, n, after, n, at, &size), size > 0) {
 *       use(at, size);
 *       at += size;
 *   }
 * Answers where the run begins: at the lowest place at or above `from` where
 * the two differ. A run that begins before `from` is told from there on.
 *   *size  how many bytes it has. It ends before the first byte that is equal,
 *          or where the shorter of the two ends. Where no run is left, it is 0,
 *          and the answer is the shorter one's length.
 * It refuses nothing, and the answer is never a question's number: the bytes
 * need not be images, the two may have any lengths and overlap, and `from` may
 * lie beyond their end. What the longer has behind the other's end is no
 * change.
 * Time: it reads both once, from `from` up to the end of the run, and equal
 * bytes 64 at a time. */

size_t bhtf_next_change(const uint8_t *before, size_t before_len,
                        const uint8_t *after, size_t after_len, size_t from,
                        size_t *size);

/* ---- a cut in the middle ----
 *
 * Add, delete and compact, with the same numbers and bytes, by way of a
 * journal, so that wherever a cut falls bhtf_recover gives the image before the
 * call or the one after it; once the mark was fully written, the one after.
 *   work     as above.
 *   journal  takes from its start how many pairs there are, 4 bytes; all the
 *            pairs, as in a list that is long enough; and the new bytes of
 *            their stretches, one after the other. Its last byte is the mark.
 *            A new journal is all zero. Its length must be the same at the call
 *            and at recovery, since the mark is looked for at its end.
 * The writes are made in this order: the content of the journal; the mark
 * becomes BHTF_MARKED; each stretch of the image; the mark becomes 0. The
 * content stays. Refused with BHTF_SHORT_SLICE (16) where the working slice is
 * too short, before any other question; and after all others, before any write,
 * with BHTF_BAD_JOURNAL (17): the journal is too short for content and mark, or
 * the mark is not 0, which says that a call was cut and bhtf_recover is to be
 * called first.
 * Size: 4 + 8 * pairs + changed bytes, and 1 for the mark. For every call
 * image_len / 2 * 9 + 6 bytes suffice; for an add 300 + 5 * m, where m is the
 * length of the key's message before or after, whichever is longer, and before
 * it may be a withdrawn one.
 * Time: the plain call's, and copying the image once and reading it three
 * times. Stack: as the plain call, so bhtf_compact_journaled up to 1,344 KiB.
 *
 * Storage that loses power: for files on a disk bhtf_file.h does what follows,
 * with bhtf_recover for step 3. The order above is that of writes to memory.
 * For memory that keeps its bytes, and for files that are mapped shared where
 * only the process may be killed, it is enough. But a system writes the pages
 * of mapped files in any order, so that a power cut may find the image's on the
 * disk and the journal's not. There, call on an image and a journal in memory,
 * and then bring them to the disk in four steps, each of which must be there
 * (fsync, or msync with MS_SYNC) before the next begins:
 *   1. the journal's content, with the mark still 0;
 *   2. the mark, BHTF_MARKED;
 *   3. the stretches that the journal's pairs name, to the image;
 *   4. the mark, 0: at the latest before step 1 of the next call.
 * A disk writes whole blocks: lend a journal so long that the mark's block
 * holds no content, that is 4,096 bytes longer than needed. At every start,
 * before any other call on the image, read both, call bhtf_recover, and where
 * the mark was BHTF_MARKED do steps 3 and 4, where it was another than 0 step
 * 4. */

uint32_t bhtf_add_journaled(uint8_t *image, size_t image_len,
                            const uint8_t *key, size_t key_len,
                            const uint8_t *data, size_t data_len,
                            uint32_t mode, uint8_t *work, size_t work_len,
                            uint8_t *journal, size_t journal_len);

uint32_t bhtf_delete_journaled(uint8_t *image, size_t image_len,
                               const uint8_t *key, size_t key_len,
                               uint8_t *work, size_t work_len,
                               uint8_t *journal, size_t journal_len);

uint32_t bhtf_compact_journaled(uint8_t *image, size_t image_len,
                                uint8_t *work, size_t work_len,
                                uint8_t *journal, size_t journal_len);

/* Recovers an image from its journal: where the mark is BHTF_MARKED, the
 * journal's stretches are written to the image; with any other mark the image
 * stays. Either way the mark becomes 0, and no other byte of the journal
 * changes. To recover again changes nothing, and a recovery from a marked
 * journal that is cut is made good by the next one; where the mark is 0 already
 * there is nothing to recover, nothing is written, and no need to call. It asks
 * no question of the image, so that it must be this image's journal.
 * Refused with BHTF_UNRECOVERABLE (18) alone: the journal is of length 0; or it
 * is marked, and its content reaches the mark, or a pair leaves the image or
 * begins before the end of the one before it. No call leaves such a journal,
 * wherever it is cut: image or journal are others, or not as long as they were.
 * Then no byte changes, the mark neither: keep both, and look. Takes no stack
 * to speak of, and the time to copy the stretches. */
uint32_t bhtf_recover(uint8_t *image, size_t image_len, uint8_t *journal,
                      size_t journal_len);

/* ---- readings by column ----
 *
 * Records of width bytes each, stored so that an office tool finds each column
 * in one piece: the message is one byte, the width, then the first byte of
 * every record, then the second bytes, and so on. Of n records, byte j of
 * record r stands at 1 + j * n + r of the message and at r * width + j of the
 * records. bhtf_lookup shows the message as it is stored. */

/* Stores records under a key, in place of its message, as BHTF_REPLACE does; an
 * absent key is entered. records_len is a multiple of width, which is from 1 to
 * BHTF_WIDTH_MAX; no record at all is allowed, and stores the width alone. The
 * columns are laid straight into the image, and no working slice is needed: a
 * message of 1 + records_len bytes, for which BHTF_TOO_LONG (12) and
 * BHTF_NO_ROOM (13) are asked.
 * Refused with BHTF_BAD_LENGTH (1), BHTF_BAD_VERSION (5), BHTF_BAD_HEADER (6)
 * and BHTF_BAD_KEY (7), then BHTF_BAD_RECORDS (19), then BHTF_TABLE_FULL (10)
 * to BHTF_NO_ROOM (13). */
uint32_t bhtf_store_columns(uint8_t *image, size_t image_len,
                            const uint8_t *key, size_t key_len,
                            const uint8_t *records, size_t records_len,
                            uint32_t width);

/* Reads a key's records back: fills out from its start, and leaves the bytes
 * after them. *bytes is how many bytes they have: one less than the message.
 * Refused with BHTF_BAD_LENGTH (1), BHTF_BAD_VERSION (5), BHTF_BAD_HEADER (6),
 * BHTF_BAD_KEY (7), BHTF_ABSENT (14) and BHTF_DAMAGED (11), then with
 * BHTF_BAD_RECORDS (19): the key has no message, or one that is no columns of
 * whole records, or they are longer than out_len. When refused out is as it
 * was, and *bytes 0. out does not overlap the image. What out_len must be,
 * bhtf_lookup tells beforehand: *length - 1. */
uint32_t bhtf_read_columns(const uint8_t *image, size_t image_len,
                           const uint8_t *key, size_t key_len, uint8_t *out,
                           size_t out_len, uint32_t *bytes);

/* ---- a bigger table without a pause ----
 *
 * When a table fills, an image grows into a second, larger one while the calls
 * go on. From an accepted bhtf_grow until the old image is empty, lend the pair
 * to the calls of this part: each accepted add, delete or store brings up to
 * nine keys over, and when no key is left in the old image (bhtf_walk finds
 * none from slot 0 on), go on with the new one alone and let the old one go.
 * Ask bhtf_walk and not bhtf_count: in a damaged image the count may say 0
 * while a key is still there.
 *   old, new   the image that grows, and the second one. They do not overlap,
 *              and both are kept as they are between the calls. To lend them
 *              the other way round is not noticed: then keys go back. Nor is it
 *              noticed that an image is another one of the same kind.
 * Until the old image is empty call none of the other calls that change an
 * image on either of them: no plain add, delete, compact, convert, recover, no
 * form that lists or journals, no further bhtf_grow. Those that only read may
 * be called on each. Lists and journals know one image: a cut in the middle of
 * one of these calls is not made good, so call them on copies of both, and put
 * both in place together.
 * Every call on the pair asks BHTF_BAD_LENGTH (1), BHTF_BAD_VERSION (5) and
 * BHTF_BAD_HEADER (6) of the old image, then BHTF_SECOND_UNFIT (21): the new
 * one fails BHTF_BAD_LENGTH (1), BHTF_BAD_VERSION (5) or BHTF_BAD_HEADER (6),
 * or has another key size or another first version number. bhtf_grow itself
 * asks more, and says what.
 * How a key is brought over: it is added to the new image, with its active
 * message or without one, and deleted from the old one. A withdrawn message
 * does not come along, nor the space that it kept. So the new image is
 * compacted as it fills. What a station has to reckon with:
 * - An offset that a lookup gave in the old image is void after each accepted
 *   add, delete or store.
 * - Space: what takes new space is refused with BHTF_NO_ROOM (13) unless all
 *   active messages that are still in the old image have room in the new one
 *   beside it; a new key is refused with BHTF_TABLE_FULL (10) unless all keys
 *   of both images have a slot there beside it. So a growth that was begun can
 *   end.
 * - Time: an add or a store that takes new space reads the whole table of the
 *   old image once, to know the space of its messages; the search for the next
 *   key to bring over goes over its empty slots. In a table of a million slots
 *   that is tens of milliseconds, until it is empty.
 * - The growth of n keys ends after at most n / 8, rounded up, accepted adds,
 *   deletes and stores. bhtf_grow_add in mode BHTF_APPEND with no data on any
 *   key that is held leaves all messages as they are and is one of them: a
 *   station that has nothing to store can go on with it.
 * - Damage: a key whose message fails BHTF_DAMAGED (11), or that both images
 *   hold, is not brought over, and none after it: then the growth does not end.
 *   Check both images (bhtf_check). */

/* Asks whether an image may grow into a second one, and writes nothing: answers
 * 0 where the old image is sound, and the new one is sound, without a key and
 * with its data area unused, of the same first version number and key size,
 * with more slots, and with room for all active messages of the old one. So is
 * a created one, of the same key size and with more slots, if it is long enough
 * (of version 2.0.0 one that bhtf_convert made of a created one). Refused with
 * BHTF_BAD_LENGTH (1), BHTF_BAD_VERSION (5) and BHTF_BAD_HEADER (6) for the old
 * image, with BHTF_UNSOUND (15) where bhtf_check does not say sound of it, and
 * with BHTF_SECOND_UNFIT (21) for everything about the new one.
 * Time and stack: two checks, and a pass over the old table. */
uint32_t bhtf_grow(const uint8_t *old_image, size_t old_len,
                   const uint8_t *new_image, size_t new_len);

/* bhtf_add on the pair, in the new image: the key is brought over first if the
 * old image still holds it, then the data is stored as bhtf_add does, then the
 * keys in the old image's lowest taken slots are brought over, up to eight.
 * BHTF_REPLACE writes over the old bytes only where the message brought over,
 * or the one already in the new image, is long enough.
 * Refused with BHTF_BAD_LENGTH (1), BHTF_BAD_VERSION (5), BHTF_BAD_HEADER (6),
 * BHTF_SECOND_UNFIT (21), BHTF_BAD_KEY (7) and BHTF_BAD_MODE (8); then with
 * what bringing the key over is refused with, if the old image holds it:
 * BHTF_DAMAGED (11), BHTF_PRESENT (9) (both images hold it),
 * BHTF_TABLE_FULL (10), BHTF_TOO_LONG (12) or BHTF_NO_ROOM (13); then with
 * bhtf_add's BHTF_ABSENT (14) and BHTF_PRESENT (9) to BHTF_NO_ROOM (13), with
 * the slots and the space that the keys still in the old image need. Refused,
 * neither image changes. */
uint32_t bhtf_grow_add(uint8_t *old_image, size_t old_len, uint8_t *new_image,
                       size_t new_len, const uint8_t *key, size_t key_len,
                       const uint8_t *data, size_t data_len, uint32_t mode);

/* bhtf_delete on the pair: a key that the old image still holds is brought over
 * first, and takes its message's space there for good. Then up to eight others
 * are brought over, as bhtf_grow_add does. Refused with BHTF_BAD_LENGTH (1),
 * BHTF_BAD_VERSION (5), BHTF_BAD_HEADER (6), BHTF_SECOND_UNFIT (21) and
 * BHTF_BAD_KEY (7), then as bringing the key over is, then with
 * BHTF_ABSENT (14) and BHTF_DAMAGED (11). Refused, neither image changes. */
uint32_t bhtf_grow_delete(uint8_t *old_image, size_t old_len,
                          uint8_t *new_image, size_t new_len,
                          const uint8_t *key, size_t key_len);

/* bhtf_store_columns on the pair, as bhtf_grow_add in mode BHTF_REPLACE.
 * Refused with BHTF_BAD_LENGTH (1), BHTF_BAD_VERSION (5), BHTF_BAD_HEADER (6),
 * BHTF_SECOND_UNFIT (21), BHTF_BAD_KEY (7) and BHTF_BAD_RECORDS (19), then as
 * bringing the key over is, then with BHTF_TABLE_FULL (10) to
 * BHTF_NO_ROOM (13). Refused, neither image changes. */
uint32_t bhtf_grow_store_columns(uint8_t *old_image, size_t old_len,
                                 uint8_t *new_image, size_t new_len,
                                 const uint8_t *key, size_t key_len,
                                 const uint8_t *records, size_t records_len,
                                 uint32_t width);

/* bhtf_lookup on the pair: the old image first, then the new one. *in_new is 1
 * where the message is in the new image, 0 where in the old; *offset and
 * *length are as bhtf_lookup's, in that image. All three are 0 when the key has
 * no message, and when refused. Refused with BHTF_BAD_LENGTH (1),
 * BHTF_BAD_VERSION (5), BHTF_BAD_HEADER (6), BHTF_SECOND_UNFIT (21),
 * BHTF_BAD_KEY (7), BHTF_ABSENT (14) and BHTF_DAMAGED (11). */
uint32_t bhtf_grow_lookup(const uint8_t *old_image, size_t old_len,
                          const uint8_t *new_image, size_t new_len,
                          const uint8_t *key, size_t key_len,
                          uint32_t *in_new, uint32_t *offset,
                          uint32_t *length);

/* *count is the number of keys that both images hold together; 0 when refused
 * with BHTF_BAD_LENGTH (1), BHTF_BAD_VERSION (5), BHTF_BAD_HEADER (6) or
 * BHTF_SECOND_UNFIT (21). */
uint32_t bhtf_grow_count(const uint8_t *old_image, size_t old_len,
                         const uint8_t *new_image, size_t new_len,
                         uint32_t *count);

/* bhtf_read_columns on the pair: from the old image if it holds the key, else
 * from the new one. Refused with BHTF_BAD_LENGTH (1), BHTF_BAD_VERSION (5),
 * BHTF_BAD_HEADER (6), BHTF_SECOND_UNFIT (21), BHTF_BAD_KEY (7),
 * BHTF_ABSENT (14), BHTF_DAMAGED (11) and BHTF_BAD_RECORDS (19). */
uint32_t bhtf_grow_read_columns(const uint8_t *old_image, size_t old_len,
                                const uint8_t *new_image, size_t new_len,
                                const uint8_t *key, size_t key_len,
                                uint8_t *out, size_t out_len,
                                uint32_t *bytes);

/* bhtf_select on the pair: the list takes the slots of the old image,
 * *old_found of them, and after those the slots of the new one, *new_found of
 * them. It must hold BHTF_SLOT_NUMBER bytes for each slot of both tables.
 * Refused with BHTF_BAD_LENGTH (1), BHTF_BAD_VERSION (5), BHTF_BAD_HEADER (6)
 * and BHTF_SECOND_UNFIT (21), then with BHTF_BAD_RANGES (22) and
 * BHTF_SHORT_SLICE (16); both results are 0 then. */
uint32_t bhtf_grow_select(const uint8_t *old_image, size_t old_len,
                          const uint8_t *new_image, size_t new_len,
                          const uint8_t *lowest, size_t lowest_len,
                          const uint8_t *highest, size_t highest_len,
                          uint8_t *list, size_t list_len, uint32_t *old_found,
                          uint32_t *new_found);

/* bhtf_at_epoch on the pair: the entry with the largest epoch at most `epoch`
 * of both images; the old one's if each has one of that epoch. *shown, *offset
 * and *length are as bhtf_at_epoch's, *in_new as bhtf_grow_lookup's; all are 0
 * when refused. Refused with BHTF_BAD_LENGTH (1), BHTF_BAD_VERSION (5),
 * BHTF_BAD_HEADER (6) and BHTF_SECOND_UNFIT (21), then with BHTF_NO_EPOCHS (23)
 * and BHTF_BAD_KEY (7), BHTF_ABSENT (14) and BHTF_DAMAGED (11). */
uint32_t bhtf_grow_at_epoch(const uint8_t *old_image, size_t old_len,
                            const uint8_t *new_image, size_t new_len,
                            const uint8_t *name, size_t name_len,
                            uint32_t epoch, uint32_t *shown, uint32_t *in_new,
                            uint32_t *offset, uint32_t *length);

/* What an answer means, in one sentence. Never NULL; not to be freed. */
const char *bhtf_message(uint32_t number);

#ifdef __cplusplus
}
#endif

#endif
