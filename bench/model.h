/* What the store must hold, and the calls of one sample, drawn beforehand. */
#ifndef MODEL_H
#define MODEL_H

#include "inputs.h"
#include "store.h"

struct point {
    uint32_t name;
    uint32_t length;
    uint8_t text[TEXT_MAX];
};

/* Call i: its name, a second name for delete and add, its text. */
struct calls_drawn {
    uint32_t count;
    uint8_t *keys;
    uint8_t *others;
    struct point *points;
};

struct model {
    struct random random;
    uint32_t key_size;
    uint32_t slots;
    uint8_t *names;
    uint32_t names_drawn;
    uint32_t next_name;   /* the next one never used */
    struct point *held;
    uint32_t count;
    struct calls_drawn calls;
};

/* Most calls of one sample. */
enum { CALLS_MAX = 65536 };
/* Names that are never added. */
enum { MISSES = 16384 };

void model_begin(struct model *m, uint64_t seed, uint32_t key_size,
                 uint32_t slots, uint32_t swaps);
void model_empty(struct model *m);
void model_end(struct model *m);

/* Each draws the calls and brings the model to the state after them. */
void draw_adds(struct model *m, uint32_t count);
void draw_hits(struct model *m, uint32_t count);
void draw_misses(struct model *m, uint32_t count);
void draw_replaces(struct model *m, uint32_t count);
void draw_renewals(struct model *m, uint32_t count);
void draw_appends(struct model *m, uint32_t count);
void draw_swaps(struct model *m, uint32_t count);

static inline const uint8_t *name_of(const struct model *m, uint32_t name)
{
    return m->names + (size_t)name * m->key_size;
}

/* Does the store hold the model's points and no other? Digests of what was
 * shown; exact has the places in the image too. */
int model_holds(const struct model *m, uint64_t *common, uint64_t *exact);

#endif
