/* Drawings to scale as SVG, in millimetres of paper. */
#ifndef SVG_H
#define SVG_H

#include "coords.h"

/* A sheet of paper with a map in a frame, north upwards. */
struct sheet {
    double width;
    double height;
    double left;      /* the frame */
    double top;
    double right;
    double bottom;
    struct at middle; /* the ground in the frame's middle */
    double scale;     /* 1 : scale */
};

/* What must be on the map. */
struct bounds {
    struct at least;
    struct at most;
    int any;
};

/* The first of the numbers 1, 2 and 5 times a power of ten that is not below
 * `least`, which is above 0. */
double round_up(double least);

/* The last of them that is not above `most`. */
double round_down(double most);

void bounds_put(struct bounds *b, const struct at *place);

/* Puts the bounds into the middle of the frame, at the largest round scale at
 * which they leave a margin on each of its sides. */
void sheet_fit(struct sheet *s, const struct bounds *b, double margin);

double sheet_x(const struct sheet *s, double east);
double sheet_y(const struct sheet *s, double north);

/* Beginning and end of a sheet of the picture; the title is for those who read
 * it aloud or hover over it. 0, or -1 for no memory. */
int svg_begin(const struct sheet *s, const char *title);
void svg_end(void);

/* Frame, grid with its coordinates, north arrow and scale bar. */
void sheet_draw(const struct sheet *s);

/* The scale bar ends here, in millimetres of paper. */
double sheet_bar_end(const struct sheet *s);

/* Bytes as XML text. What XML cannot hold becomes U+FFFD; answers how many. */
size_t xml_put(FILE *to, const char *bytes, size_t length);

/* Can XML hold these bytes as they are? */
int xml_holds(const char *bytes, size_t length);

/* A line of text; anchor is start, middle or end. */
void svg_text(double x, double y, double size, const char *anchor,
              const char *text);

/* An arrow from a place of the sheet to another one. */
void svg_arrow(double x, double y, double tip_x, double tip_y);

/* Writes a path's last part for a title, in at most `room` bytes. */
void file_word(char *to, size_t room, const char *path);

/* The size of letters, `size` at most, at which a title fits into
 * that many millimetres. */
double title_size(const char *text, double size, double width);

#endif
