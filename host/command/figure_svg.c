/* The picture of a resection: its rays, the error ellipse and the danger
 * circle, with the numbers below. */
#include "figure.h"

#include "font.h"
#include "labels.h"
#include "picture.h"
#include "short_sum.h"
#include "svg.h"

#include <stdlib.h>
#include <string.h>

static const double name_size = 3.4;  /* millimetres of paper */

static void lay_sheet(struct sheet *s, const struct resection *r)
{
    struct bounds b;

    memset(&b, 0, sizeof b);
    memset(s, 0, sizeof *s);
    for (size_t i = 0; i < r->count; i++)
        bounds_put(&b, &r->points[i]);
    bounds_put(&b, &r->station);
    s->width = 297;
    s->height = 210;
    s->left = 12;
    s->top = 22;
    s->right = s->width - 8;
    s->bottom = s->height - 58;
    sheet_fit(s, &b, 18);
}

static void draw_rays(const struct sheet *s, const struct resection *r)
{
    fputs("<g id=\"rays\" stroke=\"#2b6cb0\" stroke-width=\".35\">\n", svg_to);
    for (size_t i = 0; i < r->count; i++)
        sketch("<line x1=\"%.2f\" y1=\"%.2f\" x2=\"%.2f\" y2=\"%.2f\"/>\n",
               sheet_x(s, r->station.east), sheet_y(s, r->station.north),
               sheet_x(s, r->points[i].east), sheet_y(s, r->points[i].north));
    fputs("</g>\n", svg_to);
}

/* Circles that are far larger than the map are left to the numbers: browsers
 * draw them badly. Of more than three points, the nearest always passes
 * through the station: it is shown where it explains a weakness. */
static int lay_circle(struct ring *ring, const struct sheet *s,
                      const struct resection *r)
{
    const struct circle *c = &r->figure.circle;

    ring->x = sheet_x(s, c->centre.east);
    ring->y = sheet_y(s, c->centre.north);
    ring->radius = c->radius * 1000 / s->scale;
    return is_measured(r) && r->figure.has_circle && ring->radius <= 20000 &&
           (r->count <= 3 || r->figure.verdict != GOOD);
}

static void draw_circle(const struct sheet *s, const struct resection *r)
{
    struct ring ring;

    if (!lay_circle(&ring, s, r))
        return;
    sketch("<circle id=\"circle\" cx=\"%.3f\" cy=\"%.3f\" r=\"%.3f\" "
           "fill=\"none\" stroke=\"#b3261e\" stroke-width=\".5\" "
           "stroke-dasharray=\"2.4 1.4\" clip-path=\"url(#map)\"/>\n",
           ring.x, ring.y, ring.radius);
}

/* The round factor that makes the ellipse's long axis 5 to 12.5 mm; 0 if it
 * is unbounded. */
static double ellipse_factor(const struct sheet *s, const struct resection *r)
{
    double major = axis_mm(r, r->figure.major);

    return is_bounded(r) ? round_up(5 / (major / s->scale)) : 0;
}

static void draw_ellipse(const struct sheet *s, const struct resection *r)
{
    double factor = is_measured(r) ? ellipse_factor(s, r) : 0;
    double unit = factor / s->scale;

    if (factor == 0)
        return;
    sketch("<ellipse id=\"ellipse\" rx=\"%.3f\" ry=\"%.3f\" "
           "transform=\"translate(%.2f %.2f) rotate(%.2f)\" fill=\"#f6c343\" "
           "fill-opacity=\".55\" stroke=\"#8a6100\" stroke-width=\".3\"/>\n",
           axis_mm(r, r->figure.minor) * unit,
           axis_mm(r, r->figure.major) * unit, sheet_x(s, r->station.east),
           sheet_y(s, r->station.north), r->figure.major_bearing * 180 / PI);
}

static void draw_points(const struct sheet *s, const struct resection *r)
{
    for (size_t i = 0; i < r->count; i++)
        sketch("<path d=\"M%.2f %.2f l1.6 2.8 l-3.2 0 z\" fill=\"#fff\" "
               "stroke=\"#222\" stroke-width=\".4\"/>\n",
               sheet_x(s, r->points[i].east),
               sheet_y(s, r->points[i].north) - 1.8);
    sketch("<circle id=\"station\" cx=\"%.2f\" cy=\"%.2f\" r=\"1.2\" "
           "fill=\"#2b6cb0\"/>\n", sheet_x(s, r->station.east),
           sheet_y(s, r->station.north));
}

static void draw_name(const struct label *l, const char *name)
{
    if (!l->placed)
        return;
    sketch("<text x=\"%.2f\" y=\"%.2f\" font-size=\"%g\" textLength=\"%.2f\" "
           "lengthAdjust=\"spacingAndGlyphs\">", l->left,
           l->top + name_size * 0.8, name_size, l->width);
    xml_put(svg_to, name, strlen(name));
    fputs("</text>\n", svg_to);
}

static void draw_leads(const struct resection *r, const struct label *labels)
{
    fputs("<g id=\"leads\" stroke=\"#8a939c\" stroke-width=\".18\">\n", svg_to);
    for (size_t i = 0; i < r->count; i++)
        if (labels[i].placed && labels[i].far)
            sketch("<line x1=\"%.2f\" y1=\"%.2f\" x2=\"%.2f\" y2=\"%.2f\"/>\n",
                   labels[i].x, labels[i].y, labels[i].end_x, labels[i].end_y);
    fputs("</g>\n", svg_to);
}

static void draw_names(const struct resection *r, const struct label *labels)
{
    sketch("<g id=\"names\" font-family=\"" FONT_MONO "\" stroke=\"#fff\" "
           "stroke-width=\".7\" paint-order=\"stroke\">\n");
    for (size_t i = 0; i < r->count; i++)
        draw_name(&labels[i], r->names[i]);
    fputs("</g>\n", svg_to);
}

/* Names stand clear of each other, of the rays and of the circle. */
static int lay_names(struct label *labels, const struct sheet *s,
                     const struct resection *r)
{
    struct room room = { { s->left + 1, s->top + 1, s->right - 1,
                           s->bottom - 1 }, name_size, 1.7, 70, NULL, NULL,
                         0, 1 };
    struct ring ring;
    int circle = lay_circle(&ring, s, r);

    for (size_t i = 0; i < r->count; i++) {
        labels[i].x = sheet_x(s, r->points[i].east);
        labels[i].y = sheet_y(s, r->points[i].north);
        labels[i].tip_x = sheet_x(s, r->station.east);
        labels[i].tip_y = sheet_y(s, r->station.north);
        labels[i].width = mono_width(r->names[i], name_size);
    }
    room.ring = circle ? &ring : NULL;
    return labels_place(labels, r->count, &room) < 0 ? -1 : 0;
}

static void draw_legend(const struct sheet *s)
{
    double x = s->right - 130, y = s->bottom + 10.8;

    sketch("<circle cx=\"%.2f\" cy=\"%.2f\" r=\"1.2\" fill=\"#2b6cb0\"/>\n"
           "<path d=\"M%.2f %.2f l1.6 2.8 l-3.2 0 z\" fill=\"#fff\" "
           "stroke=\"#222\" stroke-width=\".4\"/>\n"
           "<ellipse cx=\"%.2f\" cy=\"%.2f\" rx=\"2.6\" ry=\"1.5\" "
           "fill=\"#f6c343\" fill-opacity=\".55\" stroke=\"#8a6100\" "
           "stroke-width=\".3\"/>\n"
           "<path d=\"M%.2f %.2f l9 0\" fill=\"none\" stroke=\"#b3261e\" "
           "stroke-width=\".5\" stroke-dasharray=\"2.4 1.4\"/>\n",
           x, y, x + 26, y - 1.8, x + 52, y, x + 90, y);
    svg_text(x + 3, y + 1.1, 3.2, "start", "station");
    svg_text(x + 29, y + 1.1, 3.2, "start", "point");
    svg_text(x + 56, y + 1.1, 3.2, "start", "error ellipse");
    svg_text(x + 101, y + 1.1, 3.2, "start", "danger circle");
}

/* The names that have no place on the picture, as far as a line holds them. */
static void draw_unnamed(const struct sheet *s, const struct resection *r,
                         const struct label *labels, double y)
{
    enum { MOST = 200 };
    struct buffer line = { NULL, 0, 0 };
    int done = 0;

    for (size_t i = 0; i < r->count && line.length < MOST; i++)
        if (!labels[i].placed)
            done |= buffer_put(&line, line.length == 0
                               ? "no room for the name " : ", ",
                               line.length == 0 ? 21 : 2) |
                    buffer_put(&line, r->names[i], strlen(r->names[i]));
    if (line.length > 0 && buffer_put_byte(&line, 0) == 0 && done == 0)
        svg_text(s->right, y, title_size((char *)line.bytes, 2.8, 140), "end",
                 (char *)line.bytes);
    buffer_free(&line);
}

static void draw_words(const struct sheet *s, const struct resection *r,
                       const struct label *labels)
{
    char line[512];
    double y = s->bottom + 19;

    fputs("<g id=\"numbers\">\n", svg_to);
    for (size_t i = 0; i < LINES; i++) {
        if (lines[i].measured && !is_measured(r))
            continue;
        lines[i].say(line, sizeof line, r);
        svg_text(s->left, y, 3.2, "start", lines[i].head);
        svg_text(s->left + 20, y, 3.2, "start", line);
        y += 4.7;
    }
    svg_text(s->left, y + 1, 2.8, "start", caution);
    draw_unnamed(s, r, labels, y + 1);
    fputs("</g>\n", svg_to);
}

static void draw_title(const struct sheet *s, const struct resection *r)
{
    static const char *const colours[] = { "#00703c", "#a05a00", "#b3261e" };
    char line[512], file[48], sum[SHORT_SUM], day[DAY_ROOM];

    short_sum(sum, r->site.copy.bytes, r->site.copy.length);
    day_show(day);
    file_word(file, sizeof file, r->o->word[0]);
    say_verdict(line, sizeof line, r);
    sketch("<g id=\"verdict\" font-weight=\"bold\" fill=\"%s\">\n",
           colours[r->figure.verdict]);
    svg_text(s->left, 10, title_size(line, 4.6, (s->right - s->left - 12) /
                                            FONT_BOLD), "start", line);
    fputs("</g>\n", svg_to);
    snprintf(line, sizeof line, "%s, sum %s, %s: resection at %.3f, %.3f; "
             "1 : %.10g on A4", file, sum, day, r->station.east,
             r->station.north, s->scale);
    if (is_measured(r) && ellipse_factor(s, r) > 0)
        snprintf(line + strlen(line), sizeof line - strlen(line),
                 "; ellipse for %g mgon, drawn %.10g times as large", r->sigma,
                 ellipse_factor(s, r));
    svg_text(s->left, 16.5, title_size(line, 3.6, s->right - s->left - 12),
             "start", line);
}

int draw_figure(const struct resection *r)
{
    const struct picture picture = { "Figure of a resection", 0, NULL, NULL };
    struct label *labels = calloc(r->count, sizeof *labels);
    struct sheet s;

    lay_sheet(&s, r);
    if (labels == NULL || lay_names(labels, &s, r) != 0) {
        free(labels);
        return out_of_memory();
    }
    if (svg_begin(&s, "Figure of a resection") != 0) {
        free(labels);
        return out_of_memory();
    }
    sketch("<clipPath id=\"map\"><rect x=\"%g\" y=\"%g\" width=\"%g\" "
           "height=\"%g\"/></clipPath>\n", s.left, s.top, s.right - s.left,
           s.bottom - s.top);
    sheet_draw(&s);
    draw_circle(&s, r);
    draw_rays(&s, r);
    draw_ellipse(&s, r);
    draw_leads(r, labels);
    draw_points(&s, r);
    draw_names(r, labels);
    draw_title(&s, r);
    draw_legend(&s);
    draw_words(&s, r, labels);
    svg_end();
    free(labels);
    return picture_put(r->o, &picture);
}
