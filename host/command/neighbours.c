/* The places of a file's points, with which new ones are compared. */
#include "neighbours.h"

#include "bhtf.h"
#include "point.h"

#include <math.h>
#include <stdlib.h>
#include <string.h>

struct places {
    double easting[NEIGHBOURS_MAX];
    double northing[NEIGHBOURS_MAX];
    double height[NEIGHBOURS_MAX];
    double sorted[NEIGHBOURS_MAX];
    size_t count;
    size_t heights;
};

static int compare(const void *a, const void *b)
{
    const double x = *(const double *)a, y = *(const double *)b;

    return (x > y) - (x < y);
}

/* A few points that lie elsewhere do not move it. */
static double middle(struct places *p, const double *numbers, size_t count)
{
    memcpy(p->sorted, numbers, count * sizeof *numbers);
    qsort(p->sorted, count, sizeof *numbers, compare);
    return p->sorted[count / 2];
}

/* The square of the distance from their middle. */
static double away(const struct neighbours *n, double easting, double northing)
{
    double e = easting - n->easting, m = northing - n->northing;

    return e * e + m * m;
}

static void measure(struct neighbours *n, struct places *p)
{
    n->points = p->count;
    if (p->count == 0)
        return;
    n->easting = middle(p, p->easting, p->count);
    n->northing = middle(p, p->northing, p->count);
    for (size_t i = 0; i < p->count; i++)
        p->easting[i] = away(n, p->easting[i], p->northing[i]);
    n->spread = middle(p, p->easting, p->count);
}

static void measure_heights(struct neighbours *n, struct places *p)
{
    n->heights = p->heights;
    if (p->heights == 0)
        return;
    n->height = middle(p, p->height, p->heights);
    for (size_t i = 0; i < p->heights; i++)
        p->height[i] = fabs(p->height[i] - n->height);
    n->rise = middle(p, p->height, p->heights);
}

/* One text's place and height, if it has them. */
static void take(struct places *p, struct record *r, struct piece text)
{
    struct piece fields[POINT_FIELDS];

    if (text.length == 0 || !point_fields(r, text, fields))
        return;
    if (fields[EASTING].length > 0) {
        p->easting[p->count] = point_number(fields[EASTING]);
        p->northing[p->count++] = point_number(fields[NORTHING]);
    }
    if (fields[HEIGHT].length > 0 && p->heights < NEIGHBOURS_MAX)
        p->height[p->heights++] = point_number(fields[HEIGHT]);
}

static void gather(struct places *p, const uint8_t *image, size_t length,
                   uint32_t key_size)
{
    struct record record;
    uint32_t slot, place, offset, size;

    memset(&record, 0, sizeof record);
    p->count = p->heights = 0;
    bhtf_walk(image, length, 0, &slot, &place);
    while (place != 0 && p->count < NEIGHBOURS_MAX) {
        struct piece text;

        bhtf_lookup(image, length, image + place, key_size, &offset, &size);
        text.bytes = image + offset;
        text.length = size;
        take(p, &record, text);
        bhtf_walk(image, length, slot + 1, &slot, &place);
    }
    buffer_free(&record.bytes);
}

int neighbours_find(struct neighbours *n, const uint8_t *image, size_t length,
                    uint32_t key_size)
{
    struct places *p = malloc(sizeof *p);

    if (p == NULL)
        return -1;
    gather(p, image, length, key_size);
    measure(n, p);
    measure_heights(n, p);
    free(p);
    return 0;
}

/* Twenty times as far as half of them are, and farther than targets are. */
static const double far_times = 20, far_least = 1000, high_least = 200;

double far_in_plan(const struct neighbours *n, double easting,
                   double northing)
{
    double distance = sqrt(away(n, easting, northing));

    return n->points >= NEIGHBOURS_ENOUGH && distance > far_least &&
           distance > far_times * sqrt(n->spread) ? distance : 0;
}

double far_in_height(const struct neighbours *n, double height)
{
    double distance = fabs(height - n->height);

    return n->heights >= NEIGHBOURS_ENOUGH && distance > high_least &&
           distance > far_times * n->rise ? distance : 0;
}

/* Ten times further is far, and ten times nearer is near. */
int places_swapped(const struct neighbours *n, double easting,
                   double northing)
{
    double distance = away(n, easting, northing);

    return n->points > 0 && distance > 100 * n->spread &&
           distance > 100 * away(n, northing, easting);
}
