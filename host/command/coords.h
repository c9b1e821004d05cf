/* A file's points with their places on the ground, as their texts say them. */
#ifndef COORDS_H
#define COORDS_H

#include "point.h"

/* A place on the ground in metres. */
struct at {
    double east;
    double north;
};

/* What a point's text is. */
enum spot_kind {
    SPOT_PLACED,  /* easting, northing, height, note; the height may be empty */
    SPOT_LEVEL,   /* the same with a height alone: a levelled point */
    SPOT_BARE,    /* no text */
    SPOT_EMPTY,   /* an empty one */
    SPOT_OTHER,   /* another text, or one whose fields are not numbers */
    SPOT_DAMAGED, /* refused by the library */
    SPOT_KINDS
};

struct spot {
    enum spot_kind kind;
    uint32_t slot;
    uint32_t number;        /* the library's answer */
    const uint8_t *name;    /* without its padding */
    size_t name_length;
    struct piece text;
    struct at at;
    double height;
    int has_height;
};

struct site {
    struct buffer copy;
    uint32_t key_size;
    struct spot *spots;     /* in the order of their slots, or of their names */
    size_t count;
    size_t kinds[SPOT_KINDS]; /* how many of each */
    int names_only;
    int borrowed;           /* the copy's bytes are somebody else's */
};

/* No coordinate is farther from zero, in metres: a double then still tells
 * a five-thousandth of a millimetre apart. */
#define COORDINATE_MOST 1e9

/* A plain decimal number, blanks around it passed over: 0, or -1 if it is none
 * or is beyond COORDINATE_MOST. */
int coordinate_read(struct piece p, double *number);

/* A point with this text, NULL for none, and without a name. The record is room
 * that it uses. */
void spot_of_text(struct spot *s, struct record *r, const struct piece *text);

/* The point in a taken slot of an accepted image. The record is room that it
 * uses. */
void spot_at(struct spot *s, struct record *r, const struct buffer *copy,
             uint32_t key_size, uint32_t slot);

/* All points of a file: DONE, or the status after a complaint. */
int site_open(struct site *s, const char *file, unsigned wait);

/* The same without their texts, which need not be searched then. */
int site_open_names(struct site *s, const char *file, unsigned wait);

/* All points of an accepted image, which stays its owner's and must outlive the
 * site: DONE, or TROUBLE after a complaint. */
int site_of_image(struct site *s, const uint8_t *image, size_t length);

/* All points of an image, which is copied; none if it is refused. */
int site_of(struct site *s, const uint8_t *image, size_t length);

void site_close(struct site *s);

/* Does the text have coordinates, or a height alone? */
int has_coordinates(const struct spot *s);

/* Puts the points in the order of their names' bytes. */
void site_sort(struct site *s);

/* -1, 0 or 1: the order of two points' names. */
int spot_order(const struct spot *a, const struct spot *b);

/* The point of that name in a sorted site, or NULL. */
const struct spot *site_find(const struct site *s, const uint8_t *name,
                             size_t length);

/* Two sorted sites, name by name. */
struct merge {
    const struct site *old;
    const struct site *now;
    size_t old_next;
    size_t now_next;
};

/* The next name: the point in each of the sites, NULL in one that does not
 * have it. Answers 0 when there are no more. */
int merge_next(struct merge *m, const struct spot **old,
               const struct spot **now);

/* From one place to another, in millimetres. */
struct move {
    double east;     /* 0 unless both have a place */
    double north;
    double height;   /* 0 unless both have one */
    double plane;    /* over the ground */
    double all;      /* with the height */
};

/* Both have coordinates. */
struct move spot_move(const struct spot *old, const struct spot *now);

/* A move of less is none: it is what is left of the numbers' rounding. */
#define MOVE_LEAST 0.001

/* Says how many points were left out for want of coordinates, and why; also
 * how many have a height alone if `level` says why these are left out. REFUSED
 * if one is damaged, else PARTIAL if one has a height and is left out. */
int site_say_left_out(const struct site *s, const char *file,
                      const char *level);

/* A point's name as it is shown, ended by a zero byte: 0, or -1 for no
 * memory. */
int spot_show(struct buffer *shown, const struct spot *s);

#endif
