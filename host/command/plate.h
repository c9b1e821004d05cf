/* A target plate that is half legible: which bytes a name may have at each
 * place, from a pattern. */
#ifndef PLATE_H
#define PLATE_H

#include "bhtf.h"

#include <stddef.h>
#include <stdint.h>

struct plate {
    uint32_t key_size;
    uint8_t allowed[BHTF_KEY_MAX][256]; /* 1: the byte may stand there */
    uint8_t lowest[BHTF_KEY_MAX];       /* the least range with all of them, */
    uint8_t highest[BHTF_KEY_MAX];      /* for bhtf_select */
};

/* Takes a pattern apart: ? is any byte, [a-c7] one of these, [!a-c7] none of
 * these, * at the end any bytes or none, \xHH one byte, and every other byte
 * itself. With `alike` a letter or digit also stands for those that look like
 * it. Answers NULL, or what is wrong with the pattern. */
const char *plate_read(struct plate *p, const char *pattern, uint32_t key_size,
                       int alike);

/* Does a key fit? */
int plate_fits(const struct plate *p, const uint8_t *key);

/* The letters and digits that look like this one, itself among them; NULL if
 * there are no others. */
const char *plate_alike(uint8_t c);

#endif
