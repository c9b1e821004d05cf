/* Files that were in use, of which some messages are dead: to be compacted or
 * converted. */
#ifndef USED_H
#define USED_H

#include <stddef.h>
#include <stdint.h>

enum { USED_KEY = 16 };

/* Texts have up to so many bytes; all lengths are as frequent. */
struct used_size {
    uint32_t slots;
    uint32_t points;
    uint32_t longest;
    size_t length;
};

extern const struct used_size used_sizes[];
extern const size_t used_size_count;

/* Each makes a file; 0 if all its calls were accepted. */
struct used_kind {
    const char *name;
    uint32_t (*make)(uint8_t *image, const struct used_size *z);
};

extern const struct used_kind used_kinds[];
extern const size_t used_kind_count;

#endif
