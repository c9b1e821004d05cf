/* FILE.log beside a file: what was changed, when, by whom. Only ever appended
 * to; each entry's sum is over the sum before it, so that one that was changed
 * or taken away is seen.
 *
 *     bhtf-log 1
 *     change 1 2026-11-17T09:30:00Z "maria@office" "set site.bhtf CP-101 .."
 *     from SUM          SHA-256 of the file before
 *     to SUM            and after
 *     "CP-101" "4482113.402,..,489.271," "4482113.402,..,489.3,"
 *     sum SUM           SHA-256 of the last entry's sum and of these lines
 *
 * A text is quoted as a dump has it; none stands for a point without a text,
 * absent for one that is not there. */
#ifndef LOG_FILE_H
#define LOG_FILE_H

#include "bhtf_delta.h"
#include "csv.h"

enum { SUM_DIGITS = 2 * BHTF_SUM };

/* An entry; pieces lead into the log's bytes. */
struct log_entry {
    unsigned long number;
    struct piece when;
    struct buffer who;       /* without quotes, with a zero byte */
    struct buffer command;
    char from[SUM_DIGITS + 1];
    char to[SUM_DIGITS + 1];
    struct piece points;     /* the lines of points */
    unsigned long line;      /* where it begins */
    int sound;               /* its sum is right, and goes on from the last */
};

struct log_reader {
    struct buffer bytes;
    size_t at;
    unsigned long line;
    unsigned long number;    /* of the last entry */
    char sum[SUM_DIGITS + 1]; /* of the last entry */
    const char *wrong;       /* what ended the reading, or NULL */
};

/* "FILE.log", as a new word: NULL for no memory. */
char *log_path(const char *file);

/* The sum of bytes in hexadecimal digits. */
void sum_show(char digits[SUM_DIGITS + 1], const uint8_t *bytes,
              size_t length);

/* 1; 0 if there is no log; -1 after a complaint. */
int log_open(struct log_reader *r, const char *path);

/* The next entry: 1, or 0 at the end, where `wrong` tells whether it is one.
 * The entry's buffers are its own. */
int log_next(struct log_reader *r, struct log_entry *e);

void log_entry_free(struct log_entry *e);
void log_close(struct log_reader *r);

/* The next line of an entry's points: its name and the two texts, each with a
 * zero byte; `kinds` tells what they are. 1, or 0 at the end, -1 if it is not
 * such a line. */
enum log_kind { LOG_ABSENT, LOG_NONE, LOG_TEXT };
struct log_point {
    struct buffer name;
    struct buffer text[2];
    enum log_kind kind[2];
};
int log_point_next(struct piece *points, struct log_point *p);
void log_point_free(struct log_point *p);

#endif
