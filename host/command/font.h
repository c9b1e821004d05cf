/* Widths of texts in the types that the drawings ask for. */
#ifndef FONT_H
#define FONT_H

/* Asked for in this order. The widths are those of the first one; where a name
 * must not grow, the drawing says its length as well. */
#define FONT_SANS "DejaVu Sans, Verdana, sans-serif"
#define FONT_MONO "DejaVu Sans Mono, Menlo, monospace"

/* Of bold letters to those of the same words that are not, at most. */
#define FONT_BOLD 1.27

/* Millimetres that a text takes in letters of that size. What the table does
 * not have is taken for as wide as its widest. */
double sans_width(const char *text, double size);

/* The same in the type of fixed width, which names have. */
double mono_width(const char *text, double size);

#endif
