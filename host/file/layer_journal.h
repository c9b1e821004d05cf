/* A journal's bytes: what layer_journal.c writes and layer_recover.c reads.
 *
 *   0             a page: its head, of which 80 bytes are used
 *   4096          the journal of document 02's Job 9: count of pairs, pairs,
 *                 new bytes; its last byte, the file's last, is the mark
 *   length - 4096 the mark's page. It begins with the base, 32 bytes, and
 *                 content never reaches it
 *
 * A journal gets its name when head, content and base are on the disk, and
 * keeps its length. Its mark is 0 or 0xA5. It holds an unfinished change if it
 * is marked. Head and content are written anew only while the mark is 0, and
 * the base, which tells the sum of the file as it stands, is on the disk then:
 * so a journal that a cut left can always be told from one that is damaged.
 */
#ifndef LAYER_JOURNAL_H
#define LAYER_JOURNAL_H

#include "layer.h"

#define MARK 0xA5u
#define JOURNAL_LEAST (3u * LAYER_PAGE)

/* Numbers of the head, each of 8 bytes, after the magic. */
enum {
    JOURNAL_LENGTH,
    FILE_LENGTH,
    CONTENT_LENGTH,
    CONTENT_SUM,
    REACH,          /* how many bytes of the file the sums below are of */
    BEFORE_SUM,     /* of the file before the change, */
    AFTER_SUM,      /* after it, */
    OTHERS_SUM,     /* and with the stretches' bytes taken as 0 */
    HEAD_SUM,       /* of the numbers above and the magic */
    HEAD_NUMBERS
};

#define HEAD_BYTES (8u + 8u * HEAD_NUMBERS)

struct head {
    uint64_t number[HEAD_NUMBERS];
};

void layer_put_head(uint8_t bytes[HEAD_BYTES], struct head *h);

/* Is a whole head there? */
int layer_take_head(const uint8_t bytes[HEAD_BYTES], struct head *h);

/* The sum of a file as it stands. */
struct base {
    uint64_t reach;
    uint64_t sum;
};

#define BASE_BYTES 32u

void layer_put_base(uint8_t bytes[BASE_BYTES], const struct base *b);
int layer_take_base(const uint8_t bytes[BASE_BYTES], struct base *b);

/* The sum of content, page by page. */
uint64_t layer_content_sum(const uint8_t *content, uint64_t length);

/* 0, or errno. */
int layer_write_at(int fd, const void *bytes, size_t length, uint64_t at);
int layer_read_at(int fd, void *bytes, size_t length, uint64_t at);

/* Waits for the disk, unless the handle was opened not to: 0, or errno. */
int layer_flush(const bhtf_file *f, int fd);

/* ---- a change; 0, or the number after a note ---- */

/* After the last stretch: flushes the file, and takes the mark away. */
uint32_t layer_finish_change(bhtf_file *f, const struct base *after);

uint32_t layer_fail_on_journal(bhtf_file *f, const char *what, int error);

#endif
