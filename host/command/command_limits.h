/* The command's own limits. Those of the files stand in bhtf.h. */
#ifndef COMMAND_LIMITS_H
#define COMMAND_LIMITS_H

#include "bhtf.h"

#include <stddef.h>

/* What create makes unless told otherwise. */
#define KEY_SIZE_USUAL 16u
#define BYTES_A_SLOT 256u           /* of data, in a file of the usual size */

/* Bytes in the longest text that a file of any version takes. One byte more is
 * read, so that the library can refuse it. */
#define TEXT_MOST BHTF_MESSAGE_MAX_2

/* No longer text is taken for easting,northing,height,note: a scan is not
 * searched for commas. */
#define FIELDS_TEXT_MOST BHTF_MESSAGE_MAX

/* Waiting for locks, in seconds. */
#define WAIT_USUAL 10u
#define WAIT_MAX 86400u

/* No input of points is longer, in bytes, and how much of one is read in one
 * go. */
#define INPUT_MOST ((size_t)1 << 31)
#define INPUT_PART ((size_t)4096)

/* Bytes in the longest record of a CSV file, which may say a text twice, and
 * the fields of one that are kept. */
#define RECORD_MAX (UINT64_C(2) * TEXT_MOST + 4096)
#define FIELDS_MAX 64u

/* Points of a file with which new ones are compared. */
#define NEIGHBOURS_MAX 4096u

/* Refused lines that a dry run tells one by one. */
#define REFUSALS_SHOWN 20u

/* The version of the text that dump writes and load reads, and the bytes in
 * its longest line: a name and a text of which each byte is escaped. */
#define DUMP_VERSION 1u
#define DUMP_LINE_MAX (UINT64_C(4) * (TEXT_MOST + BHTF_KEY_MAX) + 64)

/* Bytes of a file of another program, and of deltas, that are read at once. */
#define FOREIGN_MOST (1u << 28)
#define APPLY_MOST (1u << 31)

#endif
