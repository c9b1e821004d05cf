/* --delta FILE: what a command changed, appended for the stations. */
#ifndef DELTA_APPEND_H
#define DELTA_APPEND_H

#include "bhtf_delta.h"
#include "image.h"

#include <sys/types.h>

struct delta_append {
    const char *path;     /* NULL: nothing is appended */
    FILE *file;           /* to be read; its descriptor appends */
    int created;          /* its name is new in its directory, */
    int nameless;         /* or it has none yet */
    off_t end;            /* its length before */
    uint8_t before[BHTF_SUM]; /* check sum of the image before the change */
};

/* What answers an int answers 0, or -1 after a complaint. */

/* Before a change of an image that is open to be changed. `path` may be NULL.
 * A FILE whose last record leads to
 * another image is refused: no copy could go on from there. On -1 the image is
 * closed. */
int delta_append_begin(struct delta_append *f, struct image *i,
                       const char *path);

/* In place of image_close. Where nothing changed no record is written; where
 * one cannot be written the image becomes again what it was. `f` may be
 * NULL. */
int delta_append_close(struct delta_append *f, struct image *i);

/* In place of image_drop. */
void delta_append_drop(struct delta_append *f, struct image *i);

#endif
