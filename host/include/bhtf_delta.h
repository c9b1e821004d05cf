/* bhtf_delta.h - what changed from one image to another, as records that
 * travel: an office makes them, stations apply them.
 *
 * A record leads from one image to another of the same length. It has the check
 * sums of both, so that it goes on from one image and from no other, and one of
 * its own; byte by byte it stands in docs/FORMAT.md. Records may follow each
 * other without anything between them, as `bhtf add .. --delta FILE` writes
 * them.
 *
 * What answers a number answers 0 (BHTF_ACCEPTED), a number of bhtf.h or
 * bhtf_file.h, or one of those below; bhtf_message says it in words. What the
 * caller must see to is as in bhtf.h. The calls allocate nothing, except
 * bhtf_file_apply and bhtf_file_put, which say what. They are C, and tested:
 * what they do to a file goes by way of bhtf_file.h.
 */
#ifndef BHTF_DELTA_H
#define BHTF_DELTA_H

#include "bhtf_file.h"

#ifdef __cplusplus
extern "C" {
#endif

/* ---- limits ---- */

#define BHTF_SUM 32u             /* bytes of a check sum */
#define BHTF_DELTA_HEAD 80u      /* bytes of a record's head */
#define BHTF_DELTA_MOST 124u     /* no record has more bytes than one of its
                                    images and these */

/* ---- answers ---- */

enum bhtf_delta_answer {
    BHTF_DELTA_NONE = 121, BHTF_DELTA_VERSION = 122, BHTF_DELTA_CUT = 123,
    BHTF_DELTA_DAMAGED = 124, BHTF_DELTA_WRONG = 125, BHTF_DELTA_FALSE = 126,
    BHTF_DELTA_LENGTH = 127, BHTF_DELTA_GAP = 128, BHTF_DELTA_END = 129,
    BHTF_DELTA_ROOM = 130
};

#define BHTF_DELTA_NONE 121u     /* no record stands there */
#define BHTF_DELTA_VERSION 122u  /* one of a version that is not known */
#define BHTF_DELTA_CUT 123u      /* it goes on after the last byte */
#define BHTF_DELTA_DAMAGED 124u  /* its length or its check sum is wrong */
#define BHTF_DELTA_WRONG 125u    /* whole, but its pairs do not fit */
#define BHTF_DELTA_FALSE 126u    /* its new bytes do not give the image that it
                                    promises */
#define BHTF_DELTA_LENGTH 127u   /* of images of another length than this one */
#define BHTF_DELTA_GAP 128u      /* does not go on from this image */
#define BHTF_DELTA_END 129u      /* leads to another image than is wanted */
#define BHTF_DELTA_ROOM 130u     /* the slice for the record is too short */

/* ---- check sums ---- */

/* The check sum of an image, or of any bytes: SHA-256, as sha256sum(1) prints
 * it. */
void bhtf_sum(const uint8_t *bytes, size_t length, uint8_t sum[BHTF_SUM]);

/* That of a handle's image, as bhtf_file_image shows it: of the last whole
 * change, also where a journal holds it, and of a batch's changes. Refused with
 * BHTF_FILE_MISUSE (108). Time: all bytes are read. */
uint32_t bhtf_file_sum(bhtf_file *file, uint8_t sum[BHTF_SUM]);

/* ---- making records ---- */

/* Makes the record that leads from one image to another of the same length.
 *   before_sum   the check sum of `before`, if it is known, or NULL
 *   record       takes the record from its start on; image_len +
 *                BHTF_DELTA_MOST bytes always suffice
 *   *size        the record's bytes, also when refused with
 *                BHTF_DELTA_ROOM (130); so a record slice of length 0 asks how
 *                long it must be
 * Refused with BHTF_BAD_LENGTH (1), BHTF_BAD_VERSION (5) and
 * BHTF_BAD_HEADER (6) of either image, then with BHTF_DELTA_ROOM (130); *size
 * is 0 before that. Nothing is written then. Equal images have a record too, of
 * the least length. Time: both images are read, and a sum of each is
 * reckoned. */
uint32_t bhtf_delta_make(const uint8_t *before, const uint8_t *after,
                         size_t image_len, const uint8_t *before_sum,
                         uint8_t *record, size_t record_len, size_t *size);

/* In a batch: the record that leads from the file to what the batch has made of
 * it so far; to be asked for before commit, which brings it to the file. Keep
 * the record where it is safe before the commit, and send it after that. As
 * bhtf_delta_make; refused with BHTF_FILE_MISUSE (108) where no batch is
 * open. */
uint32_t bhtf_file_delta(bhtf_file *file, uint8_t *record, size_t record_len,
                         size_t *size);

/* ---- reading records ---- */

struct bhtf_delta {
    size_t size;               /* bytes of the record */
    uint32_t image_len;        /* of both images */
    uint8_t before[BHTF_SUM];  /* their check sums */
    uint8_t after[BHTF_SUM];
    uint32_t stretches;        /* how many it changes; 0 from _head */
};

/* Reads a record's head: BHTF_DELTA_HEAD bytes of it must be there, and how
 * many follow, delta->size tells. Nothing is known yet of what follows. Refused
 * with BHTF_DELTA_NONE (121) to BHTF_DELTA_DAMAGED (124); *delta is all 0
 * then. */
uint32_t bhtf_delta_head(const uint8_t *bytes, size_t length,
                         struct bhtf_delta *delta);

/* Reads the record at the beginning of some bytes and checks all of it; the
 * next one, if there are more bytes, begins delta->size bytes after its start.
 * Refused with BHTF_DELTA_NONE (121) to BHTF_DELTA_WRONG (125); *delta is all 0
 * then. */
uint32_t bhtf_delta_check(const uint8_t *bytes, size_t length,
                          struct bhtf_delta *delta);

/* A stretch of an image that a record writes. All 0 before the first. */
struct bhtf_stretch {
    uint32_t number;   /* from 1 */
    uint32_t offset;   /* in the image */
    uint32_t length;
    size_t at;         /* of its new bytes in the record */
};

/* Goes to the next stretch of a record that bhtf_delta_check accepted: other
 * than 0 if there is one. Offsets rise. */
int bhtf_delta_next(const uint8_t *record, struct bhtf_stretch *stretch);

/* ---- applying records ---- */

struct bhtf_applied {
    uint32_t applied;        /* how many records were */
    uint32_t passed;         /* and that the image had already */
    uint32_t record;         /* refused with 121 to 129: which, from 0 */
    uint8_t sum[BHTF_SUM];   /* of the image then */
};

/* Applies records, one after the other, to an image in memory: all of them, or
 * none. A record that goes on from the image is applied; one that ends with it
 * is passed over, and so are those that lead up to that one without a gap.
 *   end        the check sum that the image must have in the end, or NULL
 *   work       at least image_len bytes
 *   *done      is set on every return; sum is all 0 when refused
 * Refused with BHTF_SHORT_SLICE (16) for the working slice, with
 * BHTF_BAD_LENGTH (1), BHTF_BAD_VERSION (5) and BHTF_BAD_HEADER (6) of the
 * image, with BHTF_DELTA_NONE (121) to BHTF_DELTA_WRONG (125) of a record, no
 * record at all being BHTF_DELTA_CUT (123), with BHTF_DELTA_LENGTH (127) and
 * BHTF_DELTA_GAP (128), with BHTF_DELTA_FALSE (126) where the new bytes do not
 * give the image that is promised, or none that bhtf_count accepts, and with
 * BHTF_DELTA_END (129) last. */
uint32_t bhtf_delta_apply(uint8_t *image, size_t image_len,
                          const uint8_t *records, size_t records_len,
                          const uint8_t *end, uint8_t *work, size_t work_len,
                          struct bhtf_applied *done);

/* The same to a file that is open to be written, as one change, which is on the
 * disk when it is accepted; or, in a batch, to the batch's image. Only what
 * differs is written. Takes as much memory as the file is long, and gives it
 * back. Answers as bhtf_delta_apply, and as bhtf_file_add does. */
uint32_t bhtf_file_apply(bhtf_file *file, const uint8_t *records,
                         size_t records_len, const uint8_t *end,
                         struct bhtf_applied *done);

/* Makes a file of a whole image, in place of the one that has the name, if one
 * has, whatever its length; its bytes are those of the old file or those of the
 * new one, wherever this is cut, and the old one's journal is gone. Rights and
 * owner stay, as far as this process may give them. Readers go on with the old
 * image until bhtf_file_refresh; other writers are waited for, as the options
 * say, and one that waited is told BHTF_FILE_REPLACED (104). A file that is no
 * control point file is not replaced, but refused with BHTF_BAD_VERSION (5).
 * Refused with BHTF_BAD_LENGTH (1), BHTF_BAD_VERSION (5) and
 * BHTF_BAD_HEADER (6) of the image, and as bhtf_file_open and bhtf_file_create
 * are. Allocates names only, and maps the new file. */
uint32_t bhtf_file_put(const char *path, const uint8_t *image,
                       size_t image_len,
                       const struct bhtf_file_options *options,
                       struct bhtf_file_error *why);

/* ---- points that changed ---- */

enum bhtf_point_kind {
    BHTF_POINT_NEW = 1, BHTF_POINT_GONE = 2, BHTF_POINT_OTHER = 3,
    BHTF_POINT_DAMAGED = 4
};

#define BHTF_POINT_NEW 1u      /* not in the first image */
#define BHTF_POINT_GONE 2u     /* not in the second */
#define BHTF_POINT_OTHER 3u    /* another text, or one of the two has none */
#define BHTF_POINT_DAMAGED 4u  /* its text is damaged in one of them */

/* A point, and its text in both images: offset and length, as bhtf_lookup tells
 * them. All 0 before the first. */
struct bhtf_change {
    uint32_t kind;
    uint32_t key_offset;   /* in the second image; of one gone, in the first */
    uint32_t old_offset;
    uint32_t old_length;
    uint32_t new_offset;
    uint32_t new_length;
    uint32_t next;         /* where it goes on */
    uint32_t first_image;  /* other than 0 once those gone are looked for */
};

/* Goes to the next point in which two images differ, in the order of slots,
 * those that are gone last; their lengths may differ. change->kind is 0 when
 * there is none any more, and when refused with BHTF_BAD_LENGTH (1),
 * BHTF_BAD_VERSION (5) and BHTF_BAD_HEADER (6) of either image, or with
 * BHTF_BAD_KEY (7): their keys have not the same size. Time: a search for each
 * point. */
uint32_t bhtf_changes(const uint8_t *before, size_t before_len,
                      const uint8_t *after, size_t after_len,
                      struct bhtf_change *change);

/* In a batch: the next point that it changes. old_offset, and the key_offset of
 * one that is gone, are those of bhtf_file_before, the others of
 * bhtf_file_image. Refused with BHTF_FILE_MISUSE (108) where no batch is
 * open. */
uint32_t bhtf_file_changes(bhtf_file *file, struct bhtf_change *change);

/* A writer's file as it is on the disk, without what a batch has changed: as
 * long as bhtf_file_image, and only to be read. NULL for a reader. */
const uint8_t *bhtf_file_before(const bhtf_file *file, size_t *image_len);

#ifdef __cplusplus
}
#endif

#endif
