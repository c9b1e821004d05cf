/* All of an input's bytes, told what they are, and made UTF-8. */
#ifndef INTAKE_H
#define INTAKE_H

#include "buffer.h"

/* What the bytes are, by their beginning. */
enum intake_kind {
    INTAKE_CSV,      /* or any other text */
    INTAKE_GSI,      /* Leica GSI-16 */
    INTAKE_XML,
    INTAKE_WIDE,     /* UTF-16 or UTF-32 */
    INTAKE_OTHER     /* of another program: intake_words says which */
};

enum intake_kind intake_kind(const struct buffer *bytes);

/* For INTAKE_OTHER: what it is, and what to do about that. */
const char *intake_words(const struct buffer *bytes);

/* Is --encoding one that can be taken? 0, or -1 after a complaint. */
int encoding_known(const char *encoding);

/* Makes the bytes UTF-8 from an encoding that iconv(3) knows. With NULL or
 * utf-8 they are only looked at; with bytes they are left alone. 0, or -1
 * after a complaint that begins with `input`. */
int intake_decode(struct buffer *bytes, const char *encoding,
                  const char *input);

#endif
