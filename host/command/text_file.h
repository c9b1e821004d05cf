/* A point's text from a file, and into one. */
#ifndef TEXT_FILE_H
#define TEXT_FILE_H

#include "commands.h"

/* Reads a text, from the file of --text-file, or from standard input where it
 * is - or not given: DONE, or TROUBLE after a complaint. Of what is longer than
 * any text, one byte more. */
int text_read(struct buffer *text, const struct options *o);

/* Makes the file of --text-file of a text, whole or not at all. One that is
 * there is left as it is: DONE, or TROUBLE after a complaint. */
int text_write(const struct buffer *text, const struct options *o);

#endif
