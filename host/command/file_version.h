/* The versions of files: as --format names them, and what each allows. */
#ifndef FILE_VERSION_H
#define FILE_VERSION_H

#include "commands.h"

/* The numbers of a version, as an image has them. */
struct version {
    uint8_t number[3];
};

/* That --format names: DONE, or TROUBLE after a complaint. */
int format_read(const struct options *o, struct version *v);

struct version version_of(const uint8_t *image);

/* Is it 2.0.0, in which texts may be longer, and whose files the converter
 * alone makes? */
int version_is_wide(struct version v);

/* May a text be empty without another version for the file? */
int version_has_notes(struct version v);

/* Gives an empty image a version: the library's number, or -1 for no memory. */
int64_t version_give(uint8_t *image, size_t length, struct version v);

/* Says that an empty text took a file to another version than it had, if one
 * did: those who do not know that one refuse the file. */
void say_version(const char *file, struct version before, struct version now);

#endif
