/* The readings of a file of epochs: of each prism, in the order of epochs. */
#ifndef SERIES_H
#define SERIES_H

#include "coords.h"

struct options;

struct prism {
    const struct spot *readings; /* by their epochs */
    size_t count;
};

struct series {
    struct site site;       /* its points' names are without the epoch */
    struct prism *prisms;   /* in the order of their names */
    size_t count;
    uint32_t *epochs;       /* all that the file has, in order */
    size_t epoch_count;
};

/* The readings of the file that is the first word, of the prisms that the other
 * words name, or of all: DONE, REFUSED after a complaint also where a word
 * names none, or TROUBLE. `names_only`: without their texts. */
int series_open(struct series *s, const struct options *o, int names_only);

void series_close(struct series *s);

uint32_t reading_epoch(const struct series *s, const struct spot *reading);

/* The prism's reading of just that epoch, or NULL. */
const struct spot *reading_at(const struct series *s, const struct prism *p,
                              uint32_t epoch);

/* Its last reading before that epoch, or NULL. */
const struct spot *reading_before(const struct series *s,
                                  const struct prism *p, uint32_t epoch);

#endif
