/* The places of a file's points, with which new ones are compared. */
#ifndef NEIGHBOURS_H
#define NEIGHBOURS_H

#include "csv.h"

/* Of fewer points nobody knows what is usual. */
enum { NEIGHBOURS_ENOUGH = 5 };

struct neighbours {
    size_t points;   /* how many were looked at */
    double easting;  /* their middle */
    double northing;
    double spread;   /* half of them are no further from it, squared */
    size_t heights;  /* how many of them have one */
    double height;   /* the middle of these */
    double rise;     /* half of these are no further from it */
};

/* Looks at the points of an accepted image, at most NEIGHBOURS_MAX of them:
 * 0, or -1 for no memory. */
int neighbours_find(struct neighbours *n, const uint8_t *image, size_t length,
                    uint32_t key_size);

/* How far a place lies from their middle, in metres, if that is far: beyond
 * all that is usual for them. Else 0. */
double far_in_plan(const struct neighbours *n, double easting,
                   double northing);

/* The same of a height, above or below. */
double far_in_height(const struct neighbours *n, double height);

/* Does a place lie far from them, and would it lie near if easting and
 * northing changed places? */
int places_swapped(const struct neighbours *n, double easting,
                   double northing);

#endif
