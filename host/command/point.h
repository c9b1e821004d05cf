/* A point's text: easting,northing,height,note, as a record of CSV. */
#ifndef POINT_H
#define POINT_H

#include "csv.h"

enum { EASTING, NORTHING, HEIGHT, NOTE, POINT_FIELDS };

extern const char *const point_words[POINT_FIELDS];

/* Is this a plain decimal number: a sign or none, digits, and among or around
 * them the decimal sign or not? */
int is_number(struct piece p, int decimal);

/* What is wrong with three coordinates. Each may be left out, but an easting
 * and a northing only together. */
enum fault {
    NO_FAULT,
    FAULT_NUMBER,   /* *field is not a number */
    FAULT_EXPONENT, /* it is one with an exponent */
    FAULT_COMMA,    /* it is one with the other decimal sign */
    FAULT_HALF      /* one of easting and northing is there, *field is not */
};
enum fault point_fault(const struct piece fields[POINT_FIELDS], int decimal,
                       int *field);

/* Says what is wrong, after `place`; answers TROUBLE. */
int complain_of_fault(const char *place, enum fault fault, int field,
                      struct piece value);

/* Puts the text of these fields after what `to` holds; four empty fields are no text.
 * 0, or -1 for no memory. */
int point_put(struct buffer *to, const struct piece fields[POINT_FIELDS]);

/* Takes a text apart: 1 if it is one record of four fields and nothing else.
 * The fields belong to the record. */
int point_take(struct record *r, struct piece text,
               struct piece fields[POINT_FIELDS]);

/* The same, and 1 only if the coordinates are numbers or empty, easting and
 * northing both or neither; without the blanks around them. */
int point_fields(struct record *r, struct piece text,
                 struct piece fields[POINT_FIELDS]);

/* A plain decimal number's value. */
double point_number(struct piece p);

/* Easting and northing as numbers: 1 if the text has both. */
int point_place(struct record *r, struct piece text, double *easting,
                double *northing);

#endif
