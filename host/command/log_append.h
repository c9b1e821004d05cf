/* A file's log, written as the file is changed. */
#ifndef LOG_APPEND_H
#define LOG_APPEND_H

#include "buffer.h"

struct log_append {
    char *path;            /* NULL: no log is kept */
    struct buffer before;  /* the image before the change */
};

/* What answers an int answers 0, or -1 after a complaint. */

/* Before anything is opened: the words of the command line, as they were
 * typed, and whether a log is begun where there is none. */
void log_words(int count, char **words);
void log_wanted(int wanted);

/* When an image was opened to be changed. A log that is there is gone on with,
 * whether one is wanted or not. */
int log_begin(struct log_append *l, const char *file, const uint8_t *image,
              size_t length);

/* Before the change is committed: appends an entry, if something changed. */
int log_put(struct log_append *l, const uint8_t *image, size_t length,
            int sync);

void log_end(struct log_append *l);

/* For a new file, if one is wanted: a log without an entry. */
int log_start(const char *file);

#endif
