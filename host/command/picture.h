/* A picture of one sheet or more. It is drawn as SVG, and put out as that, or
 * as PDF, PNG or HTML that are made of it: there is one drawing only. */
#ifndef PICTURE_H
#define PICTURE_H

#include "buffer.h"
#include "commands.h"

/* Where a drawing goes: the sheet that was begun last. */
extern FILE *svg_to;

void sketch(const char *format, ...);

/* Begins a sheet, in millimetres: 0, or -1 for no memory. */
int picture_sheet(double width, double height);

/* What goes out of a picture, besides its sheets. */
struct picture {
    const char *title;
    size_t only;       /* the one sheet to put out, from 1 on; 0 for any */
    /* With --html: puts what is known of the points as JSON. */
    void (*put_points)(const void *of);
    const void *of;
};

size_t picture_sheets(void);

/* Is there a form asked for that the command, --svg apart, has? DONE, or
 * TROUBLE after a complaint. */
int picture_ask(const struct options *o);

/* Puts all sheets out on standard output in the form that is asked for, and
 * forgets them: DONE, or TROUBLE after a complaint. Of SVG and PNG there is one
 * sheet only. */
int picture_put(const struct options *o, const struct picture *p);

/* The sheets as HTML. */
struct sheet_text {
    char *bytes;
    size_t length;
    double width;
    double height;
};

void html_put(const struct picture *p, const struct sheet_text *sheets,
              size_t count);

/* All sheets as PDF, or one as PNG: DONE, or TROUBLE after a complaint. */
int render_pdf(const struct picture *p, const struct sheet_text *sheets,
               size_t count);
int render_png(const struct sheet_text *sheet);

/* Can it be done here? DONE, or TROUBLE after a complaint. */
int render_ask(void);

/* The day on which the drawing is made, as 2026-11-17; by SOURCE_DATE_EPOCH if
 * that is set, so that a drawing can be made again. */
#define DAY_ROOM 24
void day_show(char to[DAY_ROOM]);

#endif
