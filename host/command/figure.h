/* A resection that is asked about: its directions, and what is said of them. */
#ifndef FIGURE_H
#define FIGURE_H

#include "commands.h"
#include "coords.h"
#include "geometry.h"

#define PI 3.14159265358979323846
#define GON (PI / 200)

struct resection {
    const struct options *o;
    struct site site;
    struct at station;
    double sigma;      /* of a direction, in mgon */
    char **names;      /* as they are shown */
    struct at *points;
    struct ray *rays;
    size_t count;
    uint8_t *taken;    /* of each point of the site: is it one of these? */
    struct figure figure;
};

/* No figure has more directions. */
#define DIRECTIONS_MOST 1000

/* Millimetres of an axis at the given accuracy of a direction. */
double axis_mm(const struct resection *r, double axis);

/* An axis's bearing in gon, as it is printed with that many decimals. */
double axis_gon(double bearing, int decimals);

/* Could the figure be measured? Not with too few points, or from on one. */
int is_measured(const struct resection *r);

/* Is its ellipse told? Not where it is all but endless. */
int is_bounded(const struct resection *r);

/* A line of what is said, without its end. */
struct said {
    const char *head;
    void (*say)(char *to, size_t room, const struct resection *r);
    int measured;      /* needs a figure that could be measured */
};

enum { LINES = 7 };

extern const struct said lines[LINES];
extern const char caution[];

/* Good, weak or not determined, and why. */
void say_verdict(char *to, size_t room, const struct resection *r);

/* The picture: DONE, or TROUBLE after a complaint. */
int draw_figure(const struct resection *r);

#endif
