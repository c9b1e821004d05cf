/* Drawings to scale as SVG, in millimetres of paper.
 *
 * Types are asked for by name, and the viewer's own where they are not there:
 * widths are reckoned for the first of them. */
#include "svg.h"

#include "font.h"
#include "picture.h"
#include "utf8.h"

#include <math.h>
#include <string.h>

enum { BAR_PARTS = 4 };

static const double grid_apart = 24;  /* millimetres, at least */
static const double corner = 8;       /* kept free of coordinates */
static const double bar_least = 10;   /* a part of the scale bar */

/* ---- scale ---- */

void bounds_put(struct bounds *b, const struct at *place)
{
    if (!b->any)
        b->least = b->most = *place;
    b->any = 1;
    b->least.east = fmin(b->least.east, place->east);
    b->least.north = fmin(b->least.north, place->north);
    b->most.east = fmax(b->most.east, place->east);
    b->most.north = fmax(b->most.north, place->north);
}

/* The first of the steps, which end with 10, times a power of ten. */
static double step_up(double least, const double *steps)
{
    double unit = pow(10, floor(log10(least)));

    while (*steps < 10 && *steps * unit < least * (1 - 1e-9))
        steps++;
    return *steps * unit;
}

double round_up(double least)
{
    static const double steps[] = { 1, 2, 5, 10 };

    return step_up(least, steps);
}

double round_down(double most)
{
    static const double steps[] = { 5, 2, 1 };
    double unit = pow(10, floor(log10(most) + 1e-9));
    int i = 0;

    while (i < 2 && steps[i] * unit > most * (1 + 1e-9))
        i++;
    return steps[i] * unit;
}

/* Scales for which there are rulers, or that are easily reckoned. */
static double scale_up(double least)
{
    static const double steps[] = { 1, 1.25, 1.5, 2, 2.5, 3, 4, 5, 7.5, 10 };

    return step_up(least, steps);
}

void sheet_fit(struct sheet *s, const struct bounds *b, double margin)
{
    double wide = b->most.east - b->least.east;
    double high = b->most.north - b->least.north;
    double scale = fmax(wide * 1000 / (s->right - s->left - 2 * margin),
                        high * 1000 / (s->bottom - s->top - 2 * margin));

    s->scale = scale > 0 ? scale_up(fmax(scale, 10)) : 100;
    s->middle.east = b->least.east + wide / 2;
    s->middle.north = b->least.north + high / 2;
}

double sheet_x(const struct sheet *s, double east)
{
    return (s->left + s->right) / 2 +
           (east - s->middle.east) * 1000 / s->scale;
}

double sheet_y(const struct sheet *s, double north)
{
    return (s->top + s->bottom) / 2 -
           (north - s->middle.north) * 1000 / s->scale;
}

/* ---- text ---- */

static void put_escaped(FILE *to, const char *at, size_t length)
{
    switch (*at) {
    case '<':
        fputs("&lt;", to);
        break;
    case '>':
        fputs("&gt;", to);
        break;
    case '&':
        fputs("&amp;", to);
        break;
    case '"':
        fputs("&quot;", to);
        break;
    case '\t':
    case '\n':
    case '\r':
        fprintf(to, "&#%d;", *at);
        break;
    default:
        fwrite(at, 1, length, to);
    }
}

/* XML 1.0's characters, less those that it advises against. */
static int is_xml(uint32_t c)
{
    return c == 9 || c == 10 || c == 13 || (c >= 32 && c < 127) ||
           (c >= 160 && c < 0xFDD0) || (c > 0xFDEF && (c & 0xFFFE) != 0xFFFE);
}

size_t xml_put(FILE *to, const char *bytes, size_t length)
{
    size_t replaced = 0;

    while (length > 0) {
        uint32_t c;
        size_t used = utf8_read((const uint8_t *)bytes, length, &c);

        if (used > 0 && is_xml(c) && c >= 160 &&
            utf8_prints((const uint8_t *)bytes, length) == 0) {
            fprintf(to, "&#x%lX;", (unsigned long)c);
        } else if (used > 0 && is_xml(c)) {
            put_escaped(to, bytes, used);
        } else {
            fputs("\xEF\xBF\xBD", to);
            replaced++;
        }
        used = used > 0 ? used : 1;
        bytes += used;
        length -= used;
    }
    return replaced;
}

int xml_holds(const char *bytes, size_t length)
{
    while (length > 0) {
        uint32_t c;
        size_t used = utf8_read((const uint8_t *)bytes, length, &c);

        if (used == 0 || !is_xml(c))
            return 0;
        bytes += used;
        length -= used;
    }
    return 1;
}

void svg_text(double x, double y, double size, const char *anchor,
              const char *text)
{
    sketch("<text x=\"%.2f\" y=\"%.2f\" font-size=\"%g\" "
           "text-anchor=\"%s\">", x, y, size, anchor);
    xml_put(svg_to, text, strlen(text));
    fputs("</text>\n", svg_to);
}

double title_size(const char *text, double size, double width)
{
    double wide = sans_width(text, size);

    return wide <= width ? size : size * width / wide;
}

void file_word(char *to, size_t room, const char *path)
{
    const char *slash = strrchr(path, '/');
    const char *name = slash != NULL ? slash + 1 : path;

    snprintf(to, room, "%s", name);
    if (strlen(name) >= room)
        memcpy(to + room - 3, "..", 3);
}

/* ---- the drawing ---- */

int svg_begin(const struct sheet *s, const char *title)
{
    if (picture_sheet(s->width, s->height) != 0)
        return -1;
    sketch("<?xml version=\"1.0\" encoding=\"UTF-8\"?>\n"
           "<svg xmlns=\"http://www.w3.org/2000/svg\" width=\"%gmm\" "
           "height=\"%gmm\" viewBox=\"0 0 %g %g\" "
           "font-family=\"" FONT_SANS "\" fill=\"#222\">\n<title>",
           s->width, s->height, s->width, s->height);
    xml_put(svg_to, title, strlen(title));
    sketch("</title>\n<rect width=\"%g\" height=\"%g\" fill=\"#fff\"/>\n",
           s->width, s->height);
    return 0;
}

void svg_end(void)
{
    fputs("</svg>\n", svg_to);
}

void svg_arrow(double x, double y, double tip_x, double tip_y)
{
    double length = hypot(tip_x - x, tip_y - y);
    double head = fmin(1.6, 0.6 * length);
    double ux = (tip_x - x) / length * head, uy = (tip_y - y) / length * head;

    sketch("<path d=\"M%.2f %.2f L%.2f %.2f M%.2f %.2f L%.2f %.2f L%.2f "
           "%.2f\"/>\n", x, y, tip_x, tip_y, tip_x - ux - uy / 2,
           tip_y - uy + ux / 2, tip_x, tip_y, tip_x - ux + uy / 2,
           tip_y - uy - ux / 2);
}

/* ---- grid ---- */

static void draw_line(double x1, double y1, double x2, double y2)
{
    sketch("<line x1=\"%.2f\" y1=\"%.2f\" x2=\"%.2f\" y2=\"%.2f\"/>\n", x1, y1,
           x2, y2);
}

/* A coordinate with no more decimals than the grid's step needs. */
static void show_coordinate(char *to, size_t room, double value, double step)
{
    snprintf(to, room, "%.*f", step < 0.1 ? 2 : step < 1 ? 1 : 0,
             fabs(value) < step / 2 ? 0 : value);
}

static void draw_eastings(const struct sheet *s, double step)
{
    double half = (s->right - s->left) / 2 * s->scale / 1000;
    double east = ceil((s->middle.east - half) / step) * step;
    char label[40];

    for (; east <= s->middle.east + half; east += step) {
        double x = sheet_x(s, east);

        draw_line(x, s->top, x, s->bottom);
        if (x < s->left + corner || x > s->right - corner)
            continue;
        show_coordinate(label, sizeof label, east, step);
        sketch("<text stroke=\"none\" text-anchor=\"middle\" x=\"%.2f\" "
               "y=\"%.2f\">%s</text>\n", x, s->bottom + 3.6, label);
    }
}

static void draw_northings(const struct sheet *s, double step)
{
    double half = (s->bottom - s->top) / 2 * s->scale / 1000;
    double north = ceil((s->middle.north - half) / step) * step;
    char label[40];

    for (; north <= s->middle.north + half; north += step) {
        double y = sheet_y(s, north);

        draw_line(s->left, y, s->right, y);
        if (y < s->top + corner || y > s->bottom - corner)
            continue;
        show_coordinate(label, sizeof label, north, step);
        sketch("<text stroke=\"none\" text-anchor=\"middle\" "
               "transform=\"translate(%.2f %.2f) rotate(-90)\">%s</text>\n",
               s->left - 1.4, y, label);
    }
}

static void draw_grid(const struct sheet *s)
{
    double step = round_up(grid_apart * s->scale / 1000);

    fputs("<g id=\"grid\" stroke=\"#c8d4dc\" stroke-width=\"0.15\" "
          "fill=\"#5a6872\" font-size=\"2.6\">\n", svg_to);
    draw_eastings(s, step);
    draw_northings(s, step);
    fputs("</g>\n", svg_to);
    sketch("<rect x=\"%g\" y=\"%g\" width=\"%g\" height=\"%g\" fill=\"none\" "
           "stroke=\"#5a6872\" stroke-width=\"0.3\"/>\n", s->left, s->top,
           s->right - s->left, s->bottom - s->top);
}

/* ---- north arrow and scale bar, outside the frame ---- */

static void draw_north(const struct sheet *s)
{
    double x = s->right - 4, y = s->top - 3;

    sketch("<g id=\"north\"><path d=\"M%.2f %.2f l-2.6 0 l2.6 -10.5 z\" "
           "stroke=\"#222\" stroke-width=\"0.25\"/>"
           "<path d=\"M%.2f %.2f l2.6 0 l-2.6 -10.5 z\" fill=\"#fff\" "
           "stroke=\"#222\" stroke-width=\"0.25\"/></g>\n", x, y, x, y);
    svg_text(x, y - 11.4, 4, "middle", "N");
}

static void draw_bar_part(const struct sheet *s, int part, double metres)
{
    double wide = metres * 1000 / s->scale;
    double x = s->left + part * wide;

    sketch("<rect x=\"%.3f\" y=\"%.2f\" width=\"%.3f\" height=\"1.6\" "
           "fill=\"%s\" stroke=\"#222\" stroke-width=\"0.2\"/>\n", x,
           s->bottom + 10, wide, part % 2 == 0 ? "#222" : "#fff");
}

static double bar_part(const struct sheet *s)
{
    return round_up(bar_least * s->scale / 1000);
}

double sheet_bar_end(const struct sheet *s)
{
    return s->left + BAR_PARTS * bar_part(s) * 1000 / s->scale;
}

static void draw_bar(const struct sheet *s)
{
    double metres = bar_part(s);
    double y = s->bottom + 8.8;
    char label[40];

    fputs("<g id=\"bar\">\n", svg_to);
    for (int part = 0; part < BAR_PARTS; part++)
        draw_bar_part(s, part, metres);
    svg_text(s->left, y, 2.8, "middle", "0");
    snprintf(label, sizeof label, "%.10g", 2 * metres);
    svg_text(s->left + 2 * metres * 1000 / s->scale, y, 2.8, "middle", label);
    snprintf(label, sizeof label, "%.10g m", BAR_PARTS * metres);
    svg_text(sheet_bar_end(s), y, 2.8, "middle", label);
    fputs("</g>\n", svg_to);
}

void sheet_draw(const struct sheet *s)
{
    draw_grid(s);
    draw_north(s);
    draw_bar(s);
}
