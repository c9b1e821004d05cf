/* How many more epochs a file of epochs has room for. */
#ifndef EPOCHS_LEFT_H
#define EPOCHS_LEFT_H

#include "space_used.h"

/* Prints, of an accepted file of epochs, how many it has and how many more have
 * room at the rate of the last ones; of another file nothing. DONE, or TROUBLE
 * after a complaint.
 *
 * A file has epochs if the last four bytes of every key are a number below
 * 2^29, and of one at least above 0: a text's bytes are none, and padding is
 * 0. */
int epochs_left_print(const struct buffer *copy, const struct header *h,
                      const struct space *space);

#endif
