/* A report as a sheet: a plan with the movements as vectors to a scale of their
 * own, heights as bars, and for each prism a line over all epochs. */
#include "report.h"

#include "font.h"
#include "labels.h"
#include "picture.h"
#include "short_sum.h"
#include "svg.h"

#include <math.h>
#include <stdlib.h>
#include <string.h>

#define NAME_SIZE 3.2
#define MARK_SIZE 1.4

/* Millimetres of paper. A row of the list: the name and the movement in words,
 * the height's bar, and the line. */
static const double row_least = 11;
static const double row_most = 18;
static const double list_wide = 176;
static const double list_apart = 6;
static const double bar_middle = 68;  /* from the row's left */
static const double bar_half = 17;
static const double line_left = 98;
static const double line_right = 164;
static const double plan_least = 200; /* the plan's width */
static const double head = 34;        /* above frame and list */
static const double foot = 27;        /* below */
static const double vector_most = 30; /* the longest vector */
static const double vector_least = 0.4;

/* A movement of a metre and more would make all others invisible. */
static const double move_far = 1000;

static const char *const colours[STANDINGS] = { "#b3261e", "#b3261e",
                                                "#5f6670", "#5f6670",
                                                "#1a4f8a" };

static const struct {
    const char *name;
    double wide;
    double high;
} papers[] = { { "A3", 420, 297 }, { "A2", 594, 420 }, { "A1", 841, 594 },
               { "A0", 1189, 841 } };

enum { PAPERS = sizeof papers / sizeof papers[0] };

struct page {
    const struct report *r;
    struct sheet sheet;      /* its frame is the plan's */
    const char *paper;
    size_t rows;             /* in each column of the list */
    size_t shown;            /* rows in all */
    double list;             /* the left of the list */
    double row_high;
    double unit;             /* millimetres of a movement to one of paper */
    double height_most;      /* millimetres of the longest bar's scale */
    struct label *labels;    /* of the rows that have a place */
    char **names;            /* of all rows */
    long unnamed;            /* that have no place on the plan */
};

/* ---- the page ---- */

static size_t columns_on(int paper)
{
    return (size_t)((papers[paper].wide - 20 - plan_least) /
                    (list_wide + list_apart));
}

static size_t rows_on(int paper)
{
    return (size_t)((papers[paper].high - head - foot) / row_least);
}

/* The paper of --paper, else the smallest that holds all rows, else A0; -1
 * after a complaint. */
static int choose_paper(const struct report *r)
{
    int paper = 0;

    if (r->o->paper == NULL) {
        while (paper < PAPERS - 1 &&
               columns_on(paper) * rows_on(paper) < r->count)
            paper++;
        return paper;
    }
    while (paper < PAPERS && strcmp(papers[paper].name, r->o->paper) != 0)
        paper++;
    if (paper < PAPERS)
        return paper;
    complain("report: --paper is A3, A2, A1 or A0");
    return -1;
}

/* Where a prism stands on the plan: its first place of the two. */
static const struct spot *place_of(const struct row *row)
{
    if (row->from != NULL && row->from->kind == SPOT_PLACED)
        return row->from;
    return row->to != NULL && row->to->kind == SPOT_PLACED ? row->to : NULL;
}

static void lay_page(struct page *p, int paper)
{
    struct sheet *s = &p->sheet;
    size_t columns;

    p->paper = papers[paper].name;
    p->rows = rows_on(paper);
    columns = (p->r->count + p->rows - 1) / p->rows;
    columns = columns > columns_on(paper) ? columns_on(paper) : columns;
    p->shown = columns * p->rows < p->r->count ? columns * p->rows
                                               : p->r->count;
    s->width = papers[paper].wide;
    s->height = papers[paper].high;
    p->list = s->width - 8 - (double)columns * (list_wide + list_apart) +
              list_apart;
    s->left = 12;
    s->top = head;
    s->right = p->list - list_apart;
    s->bottom = s->height - foot;
    if (p->shown < p->rows)
        p->rows = p->shown;
    p->row_high = fmin((s->bottom - s->top) / (double)p->rows, row_most);
}

/* A round number of millimetres, by which the longest vector fits; 1 if there
 * is none. */
static double unit_of(const struct page *p)
{
    double most = 0;

    for (size_t i = 0; i < p->r->count; i++) {
        const struct row *row = &p->r->rows[i];

        if (row->d.has_plan && row->became.move.plane < move_far)
            most = fmax(most, row->became.move.plane);
    }
    return most < MOVE_LEAST ? 1 : round_up(most / vector_most);
}

static int fit_plan(struct page *p)
{
    struct bounds b;

    memset(&b, 0, sizeof b);
    for (size_t i = 0; i < p->r->count; i++)
        if (place_of(&p->r->rows[i]) != NULL)
            bounds_put(&b, &place_of(&p->r->rows[i])->at);
    if (!b.any)
        return 0;
    sheet_fit(&p->sheet, &b, 12 + vector_most / 2);
    p->unit = unit_of(p);
    return 1;
}

/* ---- names ---- */

static int name_rows(struct page *p)
{
    struct buffer name = { NULL, 0, 0 };

    for (size_t i = 0; i < p->r->count; i++) {
        if (spot_show(&name, p->r->rows[i].prism->readings) != 0) {
            buffer_free(&name);
            return -1;
        }
        p->names[i] = (char *)name.bytes;
        memset(&name, 0, sizeof name);
    }
    return 0;
}

static int is_drawn(const struct page *p, const struct row *row)
{
    return row->d.has_plan && row->became.move.plane < move_far &&
           row->became.move.plane / p->unit >= vector_least;
}

/* A prism that did not move stays within the circle with the chance that the
 * level leaves; 0 without --sigma. */
static double circle_of(const struct page *p)
{
    const struct precision *s = &p->r->precision;

    return s->plan * sqrt(2 * chi_square_quantile(2, s->level)) / p->unit;
}

/* A vector within it is within the tolerance; 0 without one. */
static double tolerance_of(const struct page *p)
{
    double radius = p->r->r.tolerance / p->unit;

    return p->r->o->tolerance != NULL && radius >= 0.3 && radius <= 2 *
           vector_most ? radius : 0;
}

/* The rows with a place come first in the labels: answers how many. */
static size_t lay_labels(struct page *p)
{
    size_t count = 0;

    for (size_t i = 0; i < p->r->count; i++) {
        const struct row *row = &p->r->rows[i];
        const struct spot *at = place_of(row);
        struct label *l = &p->labels[count];

        if (at == NULL)
            continue;
        count++;
        l->x = l->tip_x = sheet_x(&p->sheet, at->at.east);
        l->y = l->tip_y = sheet_y(&p->sheet, at->at.north);
        l->width = mono_width(p->names[i], NAME_SIZE);
        if (is_drawn(p, row)) {
            l->tip_x += row->d.east / p->unit;
            l->tip_y -= row->d.north / p->unit;
        }
    }
    return count;
}

static int place_names(struct page *p)
{
    const struct sheet *s = &p->sheet;
    struct room room = { { s->left + 1, s->top + 1, s->right - 1,
                           s->bottom - 1 }, NAME_SIZE,
                         fmax(MARK_SIZE, fmin(circle_of(p), 6)), 40, NULL,
                         NULL, 0, 1 };
    size_t count = lay_labels(p);

    room.mark = fmax(room.mark, fmin(tolerance_of(p), 8));
    p->unnamed = labels_place(p->labels, count, &room);
    return p->unnamed < 0 ? out_of_memory() : DONE;
}

/* ---- the plan ---- */

static void draw_vector(const struct label *l, const char *colour)
{
    sketch("<g stroke=\"%s\">", colour);
    svg_arrow(l->x, l->y, l->tip_x, l->tip_y);
    fputs("</g>\n", svg_to);
}

static void draw_mark(const struct page *p, const struct row *row,
                      const struct label *l)
{
    const char *colour = colours[row->standing];

    if (row->standing == BEYOND || row->standing == INSIDE)
        sketch("<circle cx=\"%.2f\" cy=\"%.2f\" r=\"0.9\" fill=\"%s\"/>\n",
               l->x, l->y, colour);
    else
        sketch("<path d=\"M%.2f %.2f l2.4 2.4 m0 -2.4 l-2.4 2.4\" "
               "fill=\"none\" stroke=\"%s\" stroke-width=\".45\"/>\n",
               l->x - 1.2, l->y - 1.2, colour);
    if (p->r->precision.plan > 0 && row->d.has_plan)
        sketch("<circle cx=\"%.2f\" cy=\"%.2f\" r=\"%.2f\" fill=\"none\" "
               "stroke=\"#8a939c\" stroke-width=\".2\"/>\n", l->x, l->y,
               circle_of(p));
    if (tolerance_of(p) > 0 && row->d.has_plan)
        sketch("<circle class=\"tolerance\" cx=\"%.2f\" cy=\"%.2f\" r=\"%.3f\" "
               "fill=\"none\" stroke=\"#b3261e\" stroke-width=\".2\" "
               "stroke-dasharray=\"1 .8\"/>\n", l->x, l->y, tolerance_of(p));
}

static void draw_name(const char *name, const struct label *l,
                      const char *colour)
{
    if (!l->placed)
        return;
    if (l->far)
        sketch("<line x1=\"%.2f\" y1=\"%.2f\" x2=\"%.2f\" y2=\"%.2f\" "
               "stroke=\"#8a939c\" stroke-width=\".18\"/>\n", l->x, l->y,
               l->end_x, l->end_y);
    sketch("<text x=\"%.2f\" y=\"%.2f\" fill=\"%s\" font-size=\"%g\" "
           "font-family=\"" FONT_MONO "\" textLength=\"%.2f\" "
           "lengthAdjust=\"spacingAndGlyphs\">", l->left,
           l->top + NAME_SIZE * 0.8, colour, NAME_SIZE, l->width);
    xml_put(svg_to, name, strlen(name));
    fputs("</text>\n", svg_to);
}

static void draw_prisms(const struct page *p)
{
    size_t k = 0;

    fputs("<g id=\"vectors\" fill=\"none\" stroke-width=\".4\">\n", svg_to);
    for (size_t i = 0; i < p->r->count; i++) {
        const struct row *row = &p->r->rows[i];

        if (place_of(row) == NULL)
            continue;
        if (is_drawn(p, row))
            draw_vector(&p->labels[k], colours[row->standing]);
        k++;
    }
    fputs("</g>\n<g id=\"prisms\">\n", svg_to);
    k = 0;
    for (size_t i = 0; i < p->r->count; i++) {
        const struct row *row = &p->r->rows[i];

        if (place_of(row) == NULL)
            continue;
        draw_mark(p, row, &p->labels[k]);
        draw_name(p->names[i], &p->labels[k], colours[row->standing]);
        k++;
    }
    fputs("</g>\n", svg_to);
}

/* The vectors' own bar, below the plan's frame at its right. */
static void draw_vector_bar(const struct page *p)
{
    const struct sheet *s = &p->sheet;
    double mm = round_down(40 * p->unit), wide = mm / p->unit;
    double x = s->right - 2 - wide, y = s->bottom + 11;
    char words[200];

    sketch("<g id=\"vector-bar\"><path d=\"M%.3f %.2f h%.3f m0 -1 v2 M%.3f "
           "%.2f v2\" fill=\"none\" stroke=\"#b3261e\" "
           "stroke-width=\".4\"/>\n", x, y, wide, x, y - 1);
    svg_text(x, y - 2, 2.8, "middle", "0");
    snprintf(words, sizeof words, "%.10g mm", mm);
    svg_text(x + wide, y - 2, 2.8, "end", words);
    snprintf(words, sizeof words, "vectors: 1 mm of paper is %.10g mm of "
             "movement", p->unit);
    svg_text(s->right, y + 4.4, 2.6, "end", words);
    y += 8;
    if (tolerance_of(p) > 0) {
        snprintf(words, sizeof words, "dashed circles: the tolerance of "
                 "%.10g mm", p->r->r.tolerance);
        svg_text(s->right, y, 2.6, "end", words);
        y += 3.6;
    }
    if (p->r->precision.plan > 0) {
        snprintf(words, sizeof words, "grey circles: %.10g %% of the vectors "
                 "of prisms that stand still end within",
                 100 - p->r->precision.level * 100);
        svg_text(s->right, y, 2.6, "end", words);
    }
    fputs("</g>\n", svg_to);
}

/* ---- heights ---- */

static void draw_rule(double x, double y, double high, const char *how)
{
    sketch("<line x1=\"%.2f\" y1=\"%.2f\" x2=\"%.2f\" y2=\"%.2f\" %s/>\n", x,
           y, x, y + high, how);
}

static const char thin[] = "stroke=\"#8a939c\" stroke-width=\".2\"";
static const char dashed[] = "stroke=\"#b3261e\" stroke-width=\".2\" "
                             "stroke-dasharray=\"1 .8\"";

/* Up is to the right. */
static void draw_bar(const struct page *p, const struct row *row, double x,
                     double y)
{
    double unit = bar_half / p->height_most;
    double tolerance = p->r->r.tolerance * unit;
    double long_as = fabs(row->d.height) * unit;
    char number[48];

    x += bar_middle;
    draw_rule(x, y + 1, p->row_high - 2, thin);
    if (p->r->o->tolerance != NULL && tolerance <= bar_half) {
        draw_rule(x - tolerance, y + 1.5, p->row_high - 3, dashed);
        draw_rule(x + tolerance, y + 1.5, p->row_high - 3, dashed);
    }
    if (!row->d.has_height)
        return;
    sketch("<rect class=\"height\" x=\"%.3f\" y=\"%.2f\" width=\"%.3f\" "
           "height=\"4\" fill=\"%s\"/>\n", row->d.height < 0 ? x - long_as : x,
           y + p->row_high / 2 - 2, long_as, row->d.height < 0 ? "#b35c00"
                                                            : "#2f7d5b");
    decimals_show(number, sizeof number, row->d.height, 1, 1);
    svg_text(x - bar_half - 1, y + p->row_high / 2 + 1, 2.6, "end", number);
}

/* ---- lines ---- */

/* How an axis of a line is drawn: also told apart without colours. */
static const struct {
    const char *word;
    const char *how;
} axes[] = {
    { "E", "stroke=\"#1a4f8a\"" },
    { "N", "stroke=\"#b35c00\" stroke-dasharray=\"1.6 .7\"" },
    { "H", "stroke=\"#00703c\" stroke-dasharray=\".5 .6\"" }
};

enum { AXES = sizeof axes / sizeof axes[0] };

/* One row's line. */
struct track {
    const struct page *p;
    const struct prism *prism;
    const struct spot *zero;  /* the reading from which all are reckoned */
    double left;
    double middle;            /* the sheet's y of no movement */
    double half;              /* of its height */
    double most;              /* millimetres of movement at the row's edge */
};

/* Is this axis known of both, and how far along it? */
static int axis_move(const struct track *t, const struct spot *reading,
                     int axis, double *mm)
{
    struct move m;

    if (!has_coordinates(t->zero) || !has_coordinates(reading))
        return 0;
    m = spot_move(t->zero, reading);
    *mm = axis == 0 ? m.east : axis == 1 ? m.north : m.height;
    return axis == 2 ? t->zero->has_height && reading->has_height
                     : t->zero->kind == SPOT_PLACED &&
                       reading->kind == SPOT_PLACED;
}

static double track_x(const struct track *t, uint32_t epoch)
{
    const struct series *s = &t->p->r->series;
    double first = s->epochs[0], last = s->epochs[s->epoch_count - 1];

    return t->left + line_left + (line_right - line_left) *
           (last > first ? (epoch - first) / (last - first) : 0);
}

/* An epoch that others have and this prism has not breaks its line. A reading
 * by itself is a dot. */
static void draw_axis(const struct track *t, int axis)
{
    const struct series *s = &t->p->r->series;
    size_t k = 0;
    int pen = 0;

    sketch("<path fill=\"none\" stroke-width=\".35\" stroke-linecap=\"round\" "
           "%s d=\"", axes[axis].how);
    for (size_t i = 0; i < s->epoch_count && k < t->prism->count; i++) {
        const struct spot *reading = &t->prism->readings[k];
        double mm;

        if (reading_epoch(s, reading) != s->epochs[i]) {
            pen = 0;
            continue;
        }
        k++;
        if (!axis_move(t, reading, axis, &mm)) {
            pen = 0;
            continue;
        }
        sketch("%s%.2f %.2f%s", pen ? "L" : "M", track_x(t, s->epochs[i]),
               t->middle - mm / t->most * t->half, pen ? "" : "h0");
        pen = 1;
    }
    fputs("\"/>\n", svg_to);
}

/* The farthest that it was, in any axis. */
static double track_most(const struct track *t)
{
    double most = 0, mm;

    for (size_t i = 0; i < t->prism->count; i++)
        for (int axis = 0; axis < AXES; axis++)
            if (axis_move(t, &t->prism->readings[i], axis, &mm))
                most = fmax(most, fabs(mm));
    return most;
}

static void draw_band(const struct track *t)
{
    double half = t->p->r->r.tolerance / t->most * t->half;
    double top = t->middle - t->half;

    if (t->p->r->o->tolerance != NULL)
        sketch("<rect x=\"%.2f\" y=\"%.2f\" width=\"%.2f\" height=\"%.3f\" "
               "fill=\"#e8edf1\"/>\n", t->left + line_left, t->middle - half,
               line_right - line_left, 2 * half);
    draw_rule(track_x(t, t->p->r->from), top, 2 * t->half, thin);
    draw_rule(track_x(t, t->p->r->to), top, 2 * t->half, thin);
    sketch("<line x1=\"%.2f\" y1=\"%.2f\" x2=\"%.2f\" y2=\"%.2f\" %s/>\n",
           t->left + line_left, t->middle, t->left + line_right, t->middle,
           thin);
}

static void draw_track(const struct page *p, const struct row *row, double x,
                       double y)
{
    struct track t = { p, row->prism, NULL, x, y + p->row_high / 2,
                       p->row_high / 2 - 0.9, 0 };
    char words[48];

    t.zero = row->from != NULL && has_coordinates(row->from)
        ? row->from : row->prism->readings;
    t.most = round_up(fmax(fmax(track_most(&t), p->r->r.tolerance), 0.1));
    fputs("<g class=\"track\">\n", svg_to);
    draw_band(&t);
    for (int axis = 0; axis < AXES; axis++)
        draw_axis(&t, axis);
    snprintf(words, sizeof words, "\xC2\xB1%.10g", t.most);
    svg_text(x + line_right + 1.5, t.middle + 1, 2.6, "start", words);
    fputs("</g>\n", svg_to);
}

/* ---- the list ---- */

static void draw_row(const struct page *p, size_t i, double x, double y)
{
    const struct row *row = &p->r->rows[i];
    double middle = y + p->row_high / 2;
    char words[160], length[48];

    draw_track(p, row, x, y);
    sketch("<line x1=\"%.2f\" y1=\"%.2f\" x2=\"%.2f\" y2=\"%.2f\" "
           "stroke=\"#c8d4dc\" stroke-width=\".15\"/>\n", x,
           y + p->row_high, x + list_wide, y + p->row_high);
    sketch("<g fill=\"%s\" font-weight=\"%s\">", colours[row->standing],
           row->standing == BEYOND ? "bold" : "normal");
    svg_text(x, middle - 1.1,
             title_size(p->names[i], NAME_SIZE, 44 / FONT_BOLD), "start",
             p->names[i]);
    fputs("</g>\n", svg_to);
    row_reason(words, sizeof words, p->r, row);
    if (words[0] != '\0') {
        svg_text(x, middle + 3.1, title_size(words, 2.6, 92), "start", words);
        return;
    }
    draw_bar(p, row, x, y);
    length_show(length, sizeof length, row->became.move.all, 0);
    snprintf(words, sizeof words, "%s %s%s", standing_word(p->r, row), length,
             row->test.significant ? ", significant" : "");
    svg_text(x, middle + 3.1, title_size(words, 2.6, 40), "start", words);
}

static void draw_list_head(const struct page *p, double x)
{
    double y = p->sheet.top - 2, at = x + line_left;
    char words[64];

    svg_text(x, y, 2.8, "start", "prism and movement");
    snprintf(words, sizeof words, "height, bars to \xC2\xB1%.10g mm",
             p->height_most);
    svg_text(x + bar_middle, y, 2.8, "middle", words);
    for (int i = 0; i < AXES; i++) {
        sketch("<path d=\"M%.2f %.2f h6\" stroke-width=\".5\" %s/>\n", at,
               y - 1, axes[i].how);
        svg_text(at + 7, y, 2.8, "start", axes[i].word);
        at += 12;
    }
    snprintf(words, sizeof words, "%lu .. %lu",
             (unsigned long)p->r->series.epochs[0],
             (unsigned long)p->r->series.epochs
                 [p->r->series.epoch_count - 1]);
    svg_text(x + line_right, y, 2.6, "end", words);
    svg_text(x + line_right + 1.5, y, 2.6, "start", "mm");
}

static void draw_list(const struct page *p)
{
    fputs("<g id=\"list\">\n", svg_to);
    for (size_t i = 0; i < p->shown; i++) {
        double x = p->list + (double)(i / p->rows) * (list_wide + list_apart);

        if (i % p->rows == 0)
            draw_list_head(p, x);
        draw_row(p, i, x, p->sheet.top + (double)(i % p->rows) * p->row_high);
    }
    fputs("</g>\n", svg_to);
}

/* ---- words ---- */

static void draw_titles(const struct page *p, int with_plan)
{
    const struct sheet *s = &p->sheet;
    char file[48], from[64], to[64], words[320], counts[240], sum[SHORT_SUM];
    char day[DAY_ROOM];

    file_word(file, sizeof file, p->r->o->word[0]);
    epoch_show(from, sizeof from, p->r->o->from, p->r->from);
    epoch_show(to, sizeof to, p->r->o->to, p->r->to);
    sketch("<g font-weight=\"bold\">\n");
    snprintf(words, sizeof words, "%s: movements from epoch %s to %s", file,
             from, to);
    svg_text(s->left, 10, 5.4, "start", words);
    sketch("</g>\n");
    report_counts(counts, sizeof counts, p->r);
    short_sum(sum, p->r->series.site.copy.bytes,
              p->r->series.site.copy.length);
    day_show(day);
    if (with_plan && p->unnamed > 0)
        snprintf(words, sizeof words, "%s; plan 1 : %.10g on %s, %ld without "
                 "room for the name", counts, s->scale, p->paper, p->unnamed);
    else if (with_plan)
        snprintf(words, sizeof words, "%s; plan 1 : %.10g on %s", counts,
                 s->scale, p->paper);
    else
        snprintf(words, sizeof words, "%s; no plan, since none has easting and "
                 "northing", counts);
    svg_text(s->left, 17, 3.6, "start", words);
    snprintf(words, sizeof words, "%s, sum %s, %s", file, sum, day);
    svg_text(s->width - 8, 10, 3.2, "end", words);
    report_test(words, sizeof words, p->r);
    svg_text(s->left, 22.5,
             title_size(words, 2.8, s->right - s->left - 14), "start",
             words);
    snprintf(words, sizeof words, "Bars: up is to the right. Lines: movements "
             "from the reading at %lu, each with the scale at its end;",
             (unsigned long)p->r->from);
    svg_text(p->list, s->bottom + 6, 2.8, "start", words);
    svg_text(p->list, s->bottom + 10, 2.8, "start", "grey is within the "
             "tolerance, upright rules are the two epochs; a gap is an epoch "
             "without a reading.");
    if (p->shown < p->r->count) {
        snprintf(words, sizeof words, "%lu more prisms stand in the table of "
                 "bhtf report", (unsigned long)(p->r->count - p->shown));
        svg_text(p->list, s->bottom + 15, 3.2, "start", words);
    }
}

/* ---- all of it ---- */

static double longest_height(const struct report *r)
{
    double most = r->r.tolerance;

    for (size_t i = 0; i < r->count; i++)
        if (r->rows[i].d.has_height)
            most = fmax(most, fabs(r->rows[i].d.height));
    return round_up(fmax(most, 0.1));
}

static int draw_page(struct page *p)
{
    const struct picture picture = { "movements", 0, NULL, NULL };
    int with_plan = fit_plan(p);

    if (with_plan && place_names(p) != DONE)
        return TROUBLE;
    p->height_most = longest_height(p->r);
    if (svg_begin(&p->sheet, "movements") != 0)
        return out_of_memory();
    if (with_plan) {
        sheet_draw(&p->sheet);
        draw_prisms(p);
        draw_vector_bar(p);
    }
    draw_list(p);
    draw_titles(p, with_plan);
    svg_end();
    return picture_put(p->r->o, &picture);
}

int report_draw(const struct report *r)
{
    struct page p;
    int paper = choose_paper(r);
    int status = TROUBLE;

    if (paper < 0)
        return TROUBLE;
    memset(&p, 0, sizeof p);
    p.r = r;
    p.labels = calloc(r->count + 1, sizeof *p.labels);
    p.names = calloc(r->count + 1, sizeof *p.names);
    if (p.labels == NULL || p.names == NULL || name_rows(&p) != 0) {
        status = out_of_memory();
    } else {
        lay_page(&p, paper);
        status = draw_page(&p);
    }
    for (size_t i = 0; p.names != NULL && i < r->count; i++)
        free(p.names[i]);
    free(p.names);
    free(p.labels);
    return status;
}
