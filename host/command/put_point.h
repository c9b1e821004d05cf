/* A point into an image, with a text, which may be empty, or with none. */
#ifndef PUT_POINT_H
#define PUT_POINT_H

#include "bhtf_file.h"
#include "csv.h"

/* Where points are put. */
struct target {
    uint8_t *image;
    size_t length;
    bhtf_file *file;  /* that the image is of; NULL if of none */
};

/* Stores a text, or none where it is NULL, in the mode of add that is given:
 * the library's number. With none in its place, BHTF_REPLACE takes the text of
 * a point that is there already; BHTF_WITHDRAW does that and nothing else. */
uint32_t store(struct target to, const struct buffer *key,
               const struct piece *text, uint32_t mode, uint32_t *slots_read);

/* The bytes that compaction would free, if the text that found no room then
 * had some; else 0. */
uint64_t room_by_compaction(struct target to, const struct buffer *key,
                            const struct piece *text, uint32_t mode);

#endif
