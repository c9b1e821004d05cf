/* Tables that were not made by these calls, in which points stand far from
 * their homes: what is a step elsewhere can take minutes there, or hours. */
#ifndef LONG_WORK_H
#define LONG_WORK_H

#include "image_header.h"

#include <stddef.h>

/* The slots between points and their homes, all together. Quick: no search is
 * made. */
uint64_t slots_displaced(const uint8_t *image, size_t length,
                         const struct header *h);

/* So many can be gone through without a word: about a second. */
#define SLOTS_BEARABLE UINT64_C(200000000)

/* Says beforehand, where that many slots are not bearable, how long `what` may
 * take, and that an interrupt ends it. */
void say_duration(const char *file, const char *what, uint64_t slots,
                  uint32_t key_size);

#endif
