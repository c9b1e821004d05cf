/* What the messages of a file take of its data, and of what kind they are. */
#ifndef SPACE_USED_H
#define SPACE_USED_H

#include "buffer.h"
#include "image_header.h"

struct space {
    uint64_t active;     /* bytes of active messages and their headers */
    uint64_t withdrawn;  /* bytes of inactive ones that a point keeps */
    uint64_t dead;       /* used bytes that are not active, of a file whose
                            slots are sound: what compaction frees */
    uint32_t texts;      /* points with a text */
    uint32_t empty;      /* of these: an empty one */
    uint32_t bare;       /* points without one */
    uint32_t bad;        /* points whose message is damaged */
};

/* Of an accepted file. */
struct space space_measure(const struct buffer *copy, const struct header *h);

#endif
