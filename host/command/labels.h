/* Places for names on a sheet, so that none covers another or a point, and none
 * can be taken for another point's. */
#ifndef LABELS_H
#define LABELS_H

#include <stddef.h>

struct label {
    double x;        /* the point */
    double y;
    double width;    /* of the name; 0: it is not wanted here */
    double tip_x;    /* a line drawn from the point to there is kept free */
    double tip_y;
    double left;     /* where the name begins, and its upper edge */
    double top;
    double end_x;    /* where the line that leads to it ends */
    double end_y;
    int placed;      /* 0: there was no place */
    int far;         /* a line must lead from the point to it */
};

/* A rectangle of the sheet. */
struct area {
    double left;
    double top;
    double right;
    double bottom;
};

/* A circle that is drawn, and that names keep off. */
struct ring {
    double x;
    double y;
    double radius;
};

/* Where names may stand. */
struct room {
    struct area area;
    double height;           /* of the names */
    double mark;             /* what a point takes to each side */
    double reach;            /* how far from its point a name may be */
    const struct ring *ring; /* NULL for none */
    const struct area *taken; /* rectangles that names keep off */
    size_t taken_count;
    int last;                /* lines may lead to points that they do not tell
                                apart: there is no better place elsewhere */
};

/* Places all names. One without a line is nearer to its own point than to any
 * other one, by a third. Where there is no such place it gets a line, which
 * crosses no other line, name or point; but not where another point is so near
 * that the line would not tell them apart, `last` apart. Answers how many names
 * found no place, or -1 for no memory. */
long labels_place(struct label *labels, size_t count, const struct room *room);

#endif
