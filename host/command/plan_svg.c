/* The drawing of a plan. */
#include "font.h"
#include "picture.h"
#include "plan.h"

#include <math.h>
#include <stdarg.h>
#include <string.h>

/* ---- the map ---- */

/* How each kind of point is drawn, and said. */
static const struct {
    const char *word;
    const char *colour;
    const char *shape;    /* about 0, 0 */
} looks[CHANGES] = {
    { "point", "#222", "<path d=\"M0 -1.6 L1.5 1.1 L-1.5 1.1 Z\" "
                       "fill=\"#fff\" stroke=\"#222\" stroke-width=\".35\"/>"
                       "<circle cy=\".2\" r=\".35\"/>" },
    { "", "", "" }, /* within the tolerance: drawn as the same */
    { "new", "#00703c", "<path d=\"M0 -1.7 L1.6 1.2 L-1.6 1.2 Z\" "
                        "fill=\"#00a35a\" stroke=\"#00703c\" "
                        "stroke-width=\".25\"/>" },
    { "gone", "#5f6670", "<path d=\"M-1.3 -1.3 L1.3 1.3 M-1.3 1.3 L1.3 -1.3\" "
                         "fill=\"none\" stroke=\"#5f6670\" "
                         "stroke-width=\".45\"/>" },
    { "moved", "#b3261e", "<circle r=\"1.3\" fill=\"#fff\" "
                          "stroke=\"#b3261e\" stroke-width=\".45\"/>"
                          "<circle r=\".4\" fill=\"#b3261e\"/>" },
    { "text", "#1a4f8a", "<path d=\"M0 -1.6 L1.5 1.1 L-1.5 1.1 Z\" "
                         "fill=\"#cfe3f7\" stroke=\"#1a4f8a\" "
                         "stroke-width=\".35\"/>" },
    { "damaged", "#b3261e", "<path d=\"M-1.2 -1.2 h2.4 v2.4 h-2.4 Z\" "
                            "fill=\"#b3261e\"/>" }
};

static void draw_shape(enum change change, double x, double y)
{
    sketch("<g transform=\"translate(%.2f %.2f)\">%s</g>\n", x, y,
           looks[change].shape);
}

/* An outlier's mark points out of the plan. */
static void draw_outlier(const struct view *v, size_t i)
{
    const struct sheet *s = &v->sheet;
    const struct label *l = &v->labels[i];
    double x = l->x - (s->left + s->right) / 2;
    double y = l->y - (s->top + s->bottom) / 2;

    sketch("<g data-p=\"%lu\" transform=\"translate(%.2f %.2f) "
           "rotate(%.1f)\"><path d=\"M-1.6 -1.3 L1.7 0 L-1.6 1.3 Z\" "
           "fill=\"#b3261e\"/></g>\n", (unsigned long)v->marks[i], l->x, l->y,
           atan2(y, x) * 180 / 3.14159265358979323846);
}

static void draw_mark(const struct plan *p, const struct view *v, size_t i)
{
    const struct mark *m = &p->marks[v->marks[i]];
    const struct label *l = &v->labels[i];

    if (m->outlier)
        draw_outlier(v, i);
    else
        sketch("<g data-p=\"%lu\" transform=\"translate(%.2f %.2f) "
               "scale(%g)\"%s>%s</g>\n", (unsigned long)v->marks[i], l->x,
               l->y, v->mark_size,
               v != &p->main && l->width == 0 ? " opacity=\".35\"" : "",
               looks[m->change].shape);
}

static void draw_marks(const struct plan *p, const struct view *v,
                       const char *id)
{
    sketch("<g id=\"points%s\">\n", id);
    for (size_t i = 0; i < v->count; i++)
        draw_mark(p, v, i);
    fputs("</g>\n", svg_to);
}

static void draw_leads(const struct view *v, const char *id)
{
    sketch("<g id=\"leads%s\" stroke=\"#8a939c\" stroke-width=\".18\">\n", id);
    for (size_t i = 0; i < v->count; i++) {
        const struct label *l = &v->labels[i];

        if (l->placed && l->far)
            sketch("<line x1=\"%.2f\" y1=\"%.2f\" x2=\"%.2f\" y2=\"%.2f\"/>\n",
                   l->x, l->y, l->end_x, l->end_y);
    }
    fputs("</g>\n", svg_to);
}

/* A vector begins on its point; a move to scale ends before its mark. */
static void draw_vector(const struct mark *m, const struct label *l)
{
    double x = l->x - l->tip_x, y = l->y - l->tip_y;
    double length = hypot(x, y);

    if (!is_far_move(m))
        svg_arrow(l->x, l->y, l->tip_x, l->tip_y);
    else if (length > 1.5)
        svg_arrow(l->tip_x, l->tip_y, l->x - x / length * 1.5,
                  l->y - y / length * 1.5);
}

static void draw_vectors(const struct plan *p, const struct view *v,
                         const char *id)
{
    sketch("<g id=\"moves%s\" fill=\"none\" stroke=\"#b3261e\" "
           "stroke-width=\".35\">\n", id);
    for (size_t i = 0; i < v->count; i++)
        if (v->labels[i].tip_x != v->labels[i].x ||
            v->labels[i].tip_y != v->labels[i].y)
            draw_vector(&p->marks[v->marks[i]], &v->labels[i]);
    fputs("</g>\n", svg_to);
}

/* Around the points that are held against it, to the vectors' scale. */
static void draw_tolerances(const struct plan *p, const struct view *v,
                            const char *id)
{
    double radius = p->vectors > 0 ? p->r.tolerance / p->vectors : 0;

    if (radius < 0.3)
        return;
    sketch("<g id=\"tolerances%s\" fill=\"none\" stroke=\"#8a939c\" "
           "stroke-width=\".2\">\n", id);
    for (size_t i = 0; i < v->count; i++) {
        const struct mark *m = &p->marks[v->marks[i]];

        if (m->now != NULL && m->old != NULL && !m->outlier)
            sketch("<circle cx=\"%.2f\" cy=\"%.2f\" r=\"%.3f\"/>\n",
                   v->labels[i].x, v->labels[i].y, radius);
    }
    fputs("</g>\n", svg_to);
}

/* Its length is said, so that it is that of the room kept free for it whatever
 * type there is. */
static void draw_name(const struct plan *p, size_t mark,
                      const struct label *l, double size)
{
    const struct mark *m = &p->marks[mark];

    sketch("<text x=\"%.2f\" y=\"%.2f\" textLength=\"%.2f\" "
           "lengthAdjust=\"spacingAndGlyphs\" data-p=\"%lu\" fill=\"%s\">",
           l->left, l->top + size * 0.8, l->width, (unsigned long)mark,
           looks[m->change].colour);
    xml_put(svg_to, m->text, strlen(m->text));
    fputs("</text>\n", svg_to);
}

/* A white edge keeps names readable on lines. */
static void draw_names(const struct plan *p, const struct view *v,
                       const char *id)
{
    sketch("<g id=\"names%s\" font-family=\"" FONT_MONO "\" font-size=\"%g\" "
           "stroke=\"#fff\" stroke-width=\".7\" stroke-linejoin=\"round\" "
           "paint-order=\"stroke\" xml:space=\"preserve\">\n", id,
           v->name_size);
    for (size_t i = 0; i < v->count; i++)
        if (v->labels[i].placed)
            draw_name(p, v->marks[i], &v->labels[i], v->name_size);
    fputs("</g>\n", svg_to);
}

/* The names of points that are gone are struck out; by lines of their own,
 * since a text's has its white edge too. */
static void draw_strikes(const struct plan *p, const struct view *v,
                         const char *id)
{
    sketch("<g id=\"gone%s\" stroke=\"%s\" stroke-width=\".2\">\n", id,
           looks[GONE].colour);
    for (size_t i = 0; i < v->count; i++) {
        const struct label *l = &v->labels[i];
        double y = l->top + v->name_size / 2;

        if (p->marks[v->marks[i]].change == GONE && l->placed)
            sketch("<line x1=\"%.2f\" y1=\"%.2f\" x2=\"%.2f\" "
                   "y2=\"%.2f\"/>\n", l->left, y, l->left + l->width, y);
    }
    fputs("</g>\n", svg_to);
}

static void draw_view(const struct plan *p, const struct view *v,
                      const char *id)
{
    draw_leads(v, id);
    draw_tolerances(p, v, id);
    draw_vectors(p, v, id);
    draw_marks(p, v, id);
    draw_names(p, v, id);
    draw_strikes(p, v, id);
}

/* ---- details ---- */

/* What a detail shows, on the plan: a frame with its letter. */
static void draw_detail_frame(const struct plan *p, const struct view *d,
                              const char *letter)
{
    const struct sheet *s = &p->main.sheet;
    double left = sheet_x(s, d->ground.least.east) - 2;
    double top = sheet_y(s, d->ground.most.north) - 2;
    double right = sheet_x(s, d->ground.most.east) + 2;
    double bottom = sheet_y(s, d->ground.least.north) + 2;

    sketch("<rect x=\"%.2f\" y=\"%.2f\" width=\"%.2f\" height=\"%.2f\" "
           "fill=\"none\" stroke=\"#7a3e9d\" stroke-width=\".3\" "
           "stroke-dasharray=\"1.6 .8\"/>\n", left, top, right - left,
           bottom - top);
    sketch("<g fill=\"#7a3e9d\" font-weight=\"bold\">");
    svg_text(left, top - 0.8, 3.4, "start", letter);
    fputs("</g>\n", svg_to);
}

/* A bar of its own, at the right of its heading. */
static void draw_detail_bar(const struct sheet *s)
{
    double metres = round_down(16 * s->scale / 1000);
    double wide = metres * 1000 / s->scale, x = s->right - wide - 12;
    char label[40];

    sketch("<rect x=\"%.3f\" y=\"%.2f\" width=\"%.3f\" height=\"1\" "
           "fill=\"#222\"/>\n", x, s->top - 2.4, wide);
    snprintf(label, sizeof label, "%.10g m", metres);
    svg_text(x + wide + 1, s->top - 1.2, 2.4, "start", label);
}

static void draw_detail(const struct plan *p, size_t i)
{
    const struct view *d = &p->details[i];
    const struct sheet *s = &d->sheet;
    char letter[8], words[64], id[16];

    detail_letter(letter, i);
    snprintf(id, sizeof id, "-%s", letter);
    snprintf(words, sizeof words, "%s  1 : %.10g", letter, s->scale);
    sketch("<g id=\"detail%s\">\n<rect x=\"%.2f\" y=\"%.2f\" width=\"%.2f\" "
           "height=\"%.2f\" fill=\"#fff\" stroke=\"#7a3e9d\" "
           "stroke-width=\".3\"/>\n", id, s->left, s->top, s->right - s->left,
           s->bottom - s->top);
    sketch("<g fill=\"#7a3e9d\" font-weight=\"bold\">");
    svg_text(s->left, s->top - 1.2, 3.2, "start", words);
    fputs("</g>\n", svg_to);
    draw_detail_bar(s);
    draw_view(p, d, id);
    fputs("</g>\n", svg_to);
}

static void draw_details(const struct plan *p, size_t page)
{
    for (size_t i = 0; i < p->detail_count; i++)
        if (p->details[i].page == page)
            draw_detail(p, i);
}

static void draw_detail_frames(const struct plan *p)
{
    char letter[8];

    for (size_t i = 0; i < p->detail_count; i++) {
        detail_letter(letter, i);
        draw_detail_frame(p, &p->details[i], letter);
    }
}

/* ---- words around the map ---- */

/* Adds to a line. */
static void add(char *line, size_t room, const char *format, ...)
{
    size_t length = strlen(line);
    va_list values;

    va_start(values, format);
    vsnprintf(line + length, room - length, format, values);
    va_end(values);
}

static void add_changes(char *line, size_t room, const struct plan *p)
{
    char old[48], counts[160];

    file_word(old, sizeof old, p->o->against);
    counts_words(counts, sizeof counts, &p->r);
    add(line, room, "; against %s: %s", old, counts);
}

static void draw_title(const struct plan *p)
{
    const struct sheet *s = &p->main.sheet;
    char now[48], line[400];
    size_t placed = p->now.kinds[SPOT_PLACED], level = p->now.kinds[SPOT_LEVEL];
    size_t hidden = p->now.count - placed - level;

    file_word(now, sizeof now, p->o->word[0]);
    sketch("<g font-weight=\"bold\">\n");
    svg_text(s->left, s->top - 10.6, 4.6, "start", now);
    sketch("</g>\n");
    snprintf(line, sizeof line, "%lu %s, 1 : %.10g on %s",
             (unsigned long)placed, placed == 1 ? "point" : "points",
             s->scale, p->paper.name);
    if (p->o->against != NULL)
        add_changes(line, sizeof line, p);
    if (level > 0)
        add(line, sizeof line, "; %lu with a height alone",
            (unsigned long)level);
    if (hidden > 0)
        add(line, sizeof line, "; %lu without coordinates",
            (unsigned long)hidden);
    if (p->unnamed > 0)
        add(line, sizeof line, "; %ld without room for the name", p->unnamed);
    svg_text(s->left, s->top - 5.6,
             title_size(line, 3.2, s->right - s->left - 14), "start", line);
}

/* Changed points that have no place stand above the map, as far as there is
 * room for them. */
static void draw_placeless(const struct plan *p)
{
    const struct sheet *s = &p->main.sheet;
    size_t room = (size_t)((s->right - s->left - 30) / 1.5);
    char line[800];

    if (p->placeless_count == 0)
        return;
    room = room < sizeof line ? room : sizeof line - 1;
    snprintf(line, sizeof line, "no place: %.*s", (int)p->placeless.length,
             (const char *)p->placeless.bytes);
    if (strlen(line) > room) {
        for (room -= 26; ((unsigned char)line[room] & 0xC0) == 0x80;)
            room--;
        snprintf(line + room, 27, " .. (%lu in all)",
                 (unsigned long)p->placeless_count);
    }
    svg_text(s->left, s->top - 1.6, 2.6, "start", line);
}

/* Is this look in the legend? */
static int is_in_legend(const struct plan *p, int look)
{
    return look == SAME || (look != WITHIN && p->r.changes[look] > 0);
}

static int has_outlier(const struct plan *p)
{
    for (size_t i = 0; i < p->count; i++)
        if (p->marks[i].outlier)
            return 1;
    return 0;
}

static void draw_legend(const struct plan *p)
{
    const struct sheet *s = &p->main.sheet;
    double y = s->bottom + 10.8, step = 22, x;
    int looked = has_outlier(p) ? 2 : 0;

    for (int i = 0; i < CHANGES; i++)
        looked += is_in_legend(p, i);
    step = fmin(step, (s->right - sheet_bar_end(s) - 8) / looked);
    x = s->right - step * looked;
    for (int i = 0; i < CHANGES; i++) {
        if (!is_in_legend(p, i))
            continue;
        draw_shape((enum change)i, x + 4, y);
        svg_text(x + 7, y + 1.1, 3, "start", looks[i].word);
        x += step;
    }
    if (!has_outlier(p))
        return;
    sketch("<path d=\"M%.2f %.2f l3.3 1.3 l-3.3 1.3 z\" fill=\"#b3261e\"/>\n",
           x + 2.4, y - 1.3);
    svg_text(x + 7, y + 1.1, 3, "start", "off the sheet");
}

/* ---- sheets ---- */

static int begin_sheet(const struct plan *p)
{
    char title[64];

    file_word(title, sizeof title, p->o->word[0]);
    return svg_begin(&p->main.sheet, title);
}

static int draw_main(const struct plan *p)
{
    if (begin_sheet(p) != 0)
        return -1;
    draw_block(p, 0);
    sheet_draw(&p->main.sheet);
    draw_view(p, &p->main, "");
    draw_detail_frames(p);
    draw_details(p, 0);
    draw_title(p);
    draw_placeless(p);
    draw_legend(p);
    draw_beside(p);
    svg_end();
    return 0;
}

static int draw_more_details(const struct plan *p, size_t page)
{
    if (begin_sheet(p) != 0)
        return -1;
    draw_block(p, page);
    draw_details(p, page);
    svg_end();
    return 0;
}

int draw_plan(const struct plan *p)
{
    size_t page = 1, row = p->rows_beside;
    int done = draw_main(p);

    for (; page <= p->detail_pages && done == 0; page++)
        done = draw_more_details(p, page);
    for (; page < plan_pages(p) && done == 0; page++) {
        done = begin_sheet(p);
        if (done == 0) {
            draw_list_page(p, page, &row);
            svg_end();
        }
    }
    return done;
}
