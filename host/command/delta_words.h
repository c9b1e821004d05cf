/* What is wrong with a delta, in words. */
#ifndef DELTA_WORDS_H
#define DELTA_WORDS_H

#include <stdint.h>

/* The library's sentence for an answer, to stand within another: without its
 * capital and its full stop, and of this command where the delta is of a later
 * version. Held until the next call. */
const char *delta_words(uint32_t number);

#endif
