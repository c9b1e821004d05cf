/* Records of fields between delimiters, as RFC 4180 has them. */
#ifndef CSV_H
#define CSV_H

#include "buffer.h"
#include "command_limits.h"

/* A stretch of bytes that belong to somebody else. */
struct piece {
    const uint8_t *bytes;
    size_t length;
};

/* Where records come from: bytes in memory, and then a stream. */
struct csv {
    const uint8_t *at;
    const uint8_t *end;
    FILE *file;         /* NULL: from memory only */
    struct buffer head; /* what was read of the stream to look at it */
    int delimiter;
    unsigned long line; /* of the next byte, from 1 */
    uint64_t taken;     /* bytes of the stream that were read */
};

/* The fields of one record. Those after the first FIELDS_MAX are counted but
 * not kept. */
struct record {
    struct buffer bytes;
    size_t ends[FIELDS_MAX];
    size_t fields;
    unsigned long line; /* where the record begins */
};

enum csv_answer {
    CSV_RECORD,
    CSV_END,
    CSV_OPEN_QUOTE, /* a quoted field without its closing quote */
    CSV_LATE_TEXT,  /* text between a closing quote and the next delimiter */
    CSV_TOO_LONG,   /* a record above RECORD_MAX bytes */
    CSV_WIDE,       /* UTF-16 or UTF-32 */
    CSV_NO_MEMORY,
    CSV_NO_INPUT    /* the stream failed; errno says how */
};

/* Reads a stream up to its first line that is not empty, after `skip` others.
 * A byte order mark at its beginning is passed over. Answers CSV_RECORD, also
 * at the end of the stream, or what is wrong. */
enum csv_answer csv_from_file(struct csv *c, FILE *file, uint64_t skip);
void csv_from_bytes(struct csv *c, const uint8_t *bytes, size_t length);
void csv_free(struct csv *c);

/* The delimiter that a first line such as sep=; names, as some spreadsheets
 * write it; else 0. */
int csv_named_delimiter(const struct csv *c);

/* Passes over the first line, with the same answers. */
enum csv_answer csv_pass_line(struct csv *c);

/* The next record; lines without a character are passed over. */
enum csv_answer csv_read(struct csv *c, struct record *r);

/* The record at the head of a stream, with another delimiter; nothing is
 * taken from the stream. */
enum csv_answer csv_look(const struct csv *c, struct record *r, int delimiter);

/* Says an answer after CSV_END in words. */
const char *csv_words(enum csv_answer answer);

/* A field of the record, by its number below FIELDS_MAX. */
struct piece record_field(const struct record *r, size_t field);

/* Without the blanks, tabs and no-break spaces at both ends. */
struct piece piece_trim(struct piece p);

int same_piece(struct piece a, struct piece b);

/* Writes a field, in quotes where it must be: 0, or -1 for no memory. */
int csv_put(struct buffer *to, struct piece field);

#endif
