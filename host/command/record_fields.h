/* A described record: numbers one after the other, each of some bytes. */
#ifndef RECORD_FIELDS_H
#define RECORD_FIELDS_H

#include "csv.h"

enum { RECORD_MOST = 64 }; /* bytes of the widest record */

struct field {
    char kind;      /* u, i or f */
    unsigned size;  /* bytes */
    unsigned at;    /* of the record */
};

struct fields {
    struct field of[RECORD_MOST];
    size_t count;
    unsigned width; /* of all of them */
    int little;     /* least significant byte first */
};

/* Reads u8,u16,u32,u64,i8,i16,i32,i64,f32,f64 with commas between them: 0, or
 * -1 after a complaint. */
int fields_read(struct fields *f, const char *words, int little);

/* Writes one number, as typed, into its bytes of a record: 0, or -1 if it is no
 * such number. */
int field_put(const struct fields *f, size_t i, struct piece typed,
              uint8_t *record);

/* Prints one number of a record. */
void field_print(const struct fields *f, size_t i, const uint8_t *record);

#endif
