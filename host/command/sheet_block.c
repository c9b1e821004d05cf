/* What frames a plan's sheets: the border, the title block, and the column
 * beside the plan with its list. */
#include "font.h"
#include "picture.h"
#include "plan.h"
#include "short_sum.h"

#include <math.h>
#include <string.h>

/* ---- the title block ---- */

static const double row_high = 8;

static void draw_box(double left, double top, double wide, double high,
                     double line)
{
    sketch("<rect x=\"%.2f\" y=\"%.2f\" width=\"%.2f\" height=\"%.2f\" "
           "fill=\"none\" stroke=\"#222\" stroke-width=\"%g\"/>\n", left, top,
           wide, high, line);
}

/* A field of the title block: what it is, small, above what it says. */
static void draw_field(double left, double top, double wide, const char *what,
                       const char *says)
{
    draw_box(left, top, wide, row_high, 0.2);
    sketch("<g fill=\"#5a6872\">");
    svg_text(left + 1, top + 2.5, 1.9, "start", what);
    sketch("</g>\n");
    svg_text(left + 1, top + 6.4, title_size(says, 3.2, wide - 2), "start",
             says);
}

static const char *given_or(const char *given, const char *otherwise)
{
    return given != NULL && given[0] != '\0' ? given : otherwise;
}

static void draw_title_block(const struct plan *p, size_t page)
{
    const struct paper *a = &p->paper;
    double left = a->column, wide = a->frame.right - a->column;
    double half = wide / 2, top = a->block + 1;
    char file[48], sum[SHORT_SUM], day[DAY_ROOM], words[64];

    file_word(file, sizeof file, p->o->word[0]);
    short_sum(sum, p->now.copy.bytes, p->now.copy.length);
    day_show(day);
    sketch("<g id=\"block\">\n");
    draw_field(left, top, wide, "project", given_or(p->o->project,
                                                    "not given"));
    draw_field(left, top + row_high, half, "file", file);
    draw_field(left + half, top + row_high, half, "sum of the file", sum);
    draw_field(left, top + 2 * row_high, wide, "datum", given_or(p->o->datum,
                                                          "not given"));
    snprintf(words, sizeof words, "1 : %.10g", p->main.sheet.scale);
    draw_field(left, top + 3 * row_high, half, "scale of the plan", words);
    draw_field(left + half, top + 3 * row_high, half, "units", "metres");
    draw_field(left, top + 4 * row_high, half, "date", day);
    draw_field(left + half, top + 4 * row_high, half, "paper", a->name);
    snprintf(words, sizeof words, "%lu of %lu", (unsigned long)page + 1,
             (unsigned long)plan_pages(p));
    draw_field(left, top + 5 * row_high, half, "sheet", words);
    draw_field(left + half, top + 5 * row_high, half, "made by",
               "bhtf " VERSION);
    draw_box(left, top, wide, 6 * row_high, 0.5);
    sketch("</g>\n");
}

void draw_block(const struct plan *p, size_t page)
{
    const struct area *f = &p->paper.frame;

    draw_box(f->left, f->top, f->right - f->left, f->bottom - f->top, 0.5);
    draw_title_block(p, page);
}

/* ---- lists ---- */

static void draw_rows(const struct plan *p, double size, double left,
                      double top, size_t from, size_t count)
{
    sketch("<g font-family=\"" FONT_MONO "\" font-size=\"%g\" "
           "xml:space=\"preserve\">\n", size);
    sketch("<g font-weight=\"bold\">");
    sketch("<text x=\"%.2f\" y=\"%.2f\">%s</text></g>\n", left, top,
           p->row_head);
    for (size_t i = 0; i < count; i++) {
        const char *row = p->rows[from + i];

        sketch("<text x=\"%.2f\" y=\"%.2f\">", left,
               top + LIST_STEP * (double)(i + 1));
        xml_put(svg_to, row, strlen(row));
        sketch("</text>\n");
    }
    sketch("</g>\n");
}

void draw_list_page(const struct plan *p, size_t page, size_t *row)
{
    const struct paper *a = &p->paper;
    size_t columns = list_columns(p);

    draw_block(p, page);
    sketch("<g font-weight=\"bold\">\n");
    svg_text(a->frame.left + 4, a->frame.top + 6, 3.6, "start",
             "List of coordinates");
    sketch("</g>\n<g id=\"list-%lu\">\n", (unsigned long)page + 1);
    for (size_t i = 0; i < columns && *row < p->row_count; i++) {
        size_t rows = list_rows(p, i);

        rows = rows < p->row_count - *row ? rows : p->row_count - *row;
        draw_rows(p, LIST_SIZE, a->frame.left + 4 +
                  (double)i * (p->row_wide + 5), a->frame.top + 11.5, *row,
                  rows);
        *row += rows;
    }
    sketch("</g>\n");
}

/* ---- beside the plan ---- */

/* Words in lines of the column's width. */
struct lines {
    double left;
    double y;
    double wide;
    double most;      /* the last line's y */
    char line[256];
    int full;         /* no more are drawn */
    int dry;          /* none are drawn: how many there are is asked */
};

static const double words_size = 2.5;

static void end_line(struct lines *l)
{
    if (l->line[0] != '\0' && !l->full && !l->dry)
        svg_text(l->left, l->y, words_size, "start", l->line);
    l->line[0] = '\0';
    l->y += 3.5;
    l->full = l->y > l->most;
}

static void put_word(struct lines *l, const char *word)
{
    size_t length = strlen(l->line);

    if (length > 0 && (length + strlen(word) + 2 > sizeof l->line ||
                       sans_width(l->line, words_size) +
                       sans_width(word, words_size) + 1 > l->wide)) {
        end_line(l);
        length = 0;
    }
    snprintf(l->line + length, sizeof l->line - length, "%s%s",
             length > 0 ? " " : "", word);
}

static void put_details(const struct plan *p, struct lines *l)
{
    char words[80], letter[8];

    for (size_t i = 0; i < p->detail_count; i++) {
        const struct view *d = &p->details[i];

        detail_letter(letter, i);
        if (d->page == 0)
            snprintf(words, sizeof words, "Detail %s: 1 : %.10g.", letter,
                     d->sheet.scale);
        else
            snprintf(words, sizeof words, "Detail %s: 1 : %.10g, sheet %lu.",
                     letter, d->sheet.scale, (unsigned long)d->page + 1);
        put_word(l, words);
    }
    if (p->detail_count > 0)
        end_line(l);
}

/* The names that have no place, as far as there is room for them; all of them
 * have a star in the list. */
static void put_unnamed(const struct plan *p, struct lines *l)
{
    char words[96];

    if (p->unnamed == 0)
        return;
    snprintf(words, sizeof words, "%ld without room for the name, with a star "
             "in the list:", p->unnamed);
    put_word(l, words);
    for (size_t i = 0; i < p->count && !l->full; i++)
        if (!p->marks[i].named)
            put_word(l, p->marks[i].text);
    if (l->full && l->y <= l->most + 3.6) {
        l->full = 0;
        snprintf(l->line, sizeof l->line, ".. and others: see the list");
    }
    end_line(l);
}

static void put_list_pages(const struct plan *p, struct lines *l)
{
    size_t first = 2 + p->detail_pages, last = plan_pages(p);
    char words[96];

    if (p->list_pages == 0)
        return;
    if (first == last)
        snprintf(words, sizeof words, "The list of coordinates goes on on "
                 "sheet %lu.", (unsigned long)first);
    else
        snprintf(words, sizeof words, "The list of coordinates goes on on "
                 "sheets %lu to %lu.", (unsigned long)first,
                 (unsigned long)last);
    put_word(l, words);
    end_line(l);
}

/* The vectors' own bar, and the circles of the tolerance. */
static void draw_vector_bar(const struct plan *p)
{
    double mm = round_down(40 * p->vectors), wide = mm / p->vectors;
    double x = p->paper.column + 3, y = p->paper.block - 13;
    char words[160];

    sketch("<g id=\"vector-bar\"><path d=\"M%.3f %.2f h%.3f m0 -1 v2 M%.3f "
           "%.2f v2\" fill=\"none\" stroke=\"#b3261e\" "
           "stroke-width=\".4\"/>\n", x, y, wide, x, y - 1);
    svg_text(x, y - 2, 2.5, "middle", "0");
    snprintf(words, sizeof words, "%.10g mm", mm);
    svg_text(x + wide, y - 2, 2.5, "middle", words);
    snprintf(words, sizeof words, "vectors: 1 mm of paper is %.10g mm of "
             "movement", p->vectors);
    svg_text(x, y + 4, 2.5, "start", words);
    svg_text(x, y + 7.5, 2.5, "start", "moves of a metre and more: to the "
             "plan's scale");
    if (p->r.tolerance > 0) {
        snprintf(words, sizeof words, "circles: %.10g mm, the tolerance",
                 p->r.tolerance);
        svg_text(x, y + 11, 2.5, "start", words);
    }
    sketch("</g>\n");
}

/* The words beside the plan; answers where they end. */
static double put_notes(const struct plan *p, int dry)
{
    const struct paper *a = &p->paper;
    struct lines l = { a->column + 2, a->frame.top + 6, 0, 0, "", 0, dry };

    l.wide = a->frame.right - l.left - 1;
    l.most = a->frame.top + (a->block - a->frame.top) / 2;
    put_details(p, &l);
    put_unnamed(p, &l);
    put_list_pages(p, &l);
    return l.y;
}

size_t list_rows_beside(const struct plan *p)
{
    double top = put_notes(p, 1) + 4; /* a line that the list goes on */
    double bottom = p->paper.block - (p->vectors > 0 ? 21 : 2);

    return bottom - top < 2 * LIST_STEP
        ? 0 : (size_t)((bottom - top) / LIST_STEP) - 1;
}

void draw_beside(const struct plan *p)
{
    double y;

    sketch("<g id=\"beside\">\n");
    y = put_notes(p, 0);
    if (p->rows_beside > 0)
        draw_rows(p, p->beside_size, p->paper.column + 2, y, 0,
                  p->rows_beside);
    sketch("</g>\n");
    if (p->vectors > 0)
        draw_vector_bar(p);
}
