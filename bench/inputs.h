/* Names, messages and orders drawn from one seed. */
#ifndef INPUTS_H
#define INPUTS_H

#include <stdint.h>

enum { TEXT_MAX = 80, KEY_MAX = 32 };

struct random {
    uint64_t state;
};

uint64_t draw(struct random *r);
uint32_t draw_below(struct random *r, uint32_t bound);

/* count distinct names of key_size bytes (4 to 32), one behind the other: one
 * of eight network names, then four letters or digits. To be freed. */
uint8_t *draw_names(struct random *r, uint32_t key_size, uint32_t count);

/* Coordinates and a short note, about 40 bytes; the note, and so the length,
 * depends on the name's number alone. Answers the length. */
uint32_t draw_message(struct random *r, uint32_t name, uint8_t *text);

#endif
