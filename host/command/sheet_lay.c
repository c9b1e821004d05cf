/* Where everything of a plan goes: the paper and its scale, the names, and on
 * which sheet each of it is. */
#include "font.h"
#include "plan.h"
#include "sheet_details.h"

#include <math.h>
#include <stdlib.h>
#include <string.h>

/* Millimetres of paper. The border leaves room to file the sheet at its
 * left. */
static const double file_margin = 20;
static const double margin = 10;
static const double column_wide = 84;
static const double block_high = 49;
static const double above_map = 19;    /* title and north */
static const double below_map = 16;    /* grid numbers, bar and legend */
static const double left_of_map = 6;
static const double beside_map = 5;
static const double map_margin = 14;   /* between points and the map's sides */
static const double map_above = 7;     /* and its upper and lower edge */

/* Letters of 2.5 and of 1.8 millimetres, as ISO 3098 has them, and marks to
 * go with them. */
static const struct {
    double name;
    double mark;
} sizes[] = { { 3.4, 1 }, { 2.5, 0.75 } };

enum { SIZES = sizeof sizes / sizeof sizes[0] };

static const double list_least = 1.8;  /* letters of the list beside the plan */
static const double lead_most = 22;    /* a line that leads to a name */
static const double edge = 3.5;        /* outliers stand so far from it */
static const double vector_most = 15;  /* the longest vector */
static const double vector_least = 0.5;

/* A move from this length on is drawn to scale, in millimetres. */
static const double move_far = 1000;

/* ---- paper ---- */

static const struct {
    const char *name;
    double longer;
    double shorter;
} papers[] = { { "A4", 297, 210 }, { "A3", 420, 297 }, { "A2", 594, 420 },
               { "A1", 841, 594 }, { "A0", 1189, 841 } };

enum { PAPERS = sizeof papers / sizeof papers[0], USUAL = 1 };

int paper_read(const char *word)
{
    for (int paper = 0; paper < PAPERS; paper++)
        if (strcmp(papers[paper].name, word) == 0)
            return paper;
    return -1;
}

static struct bounds bounds_of(const struct plan *p)
{
    struct bounds b;

    memset(&b, 0, sizeof b);
    for (size_t i = 0; i < p->count; i++) {
        const struct mark *m = &p->marks[i];

        if (m->outlier)
            continue;
        bounds_put(&b, &m->at);
        if (is_far_move(m))
            bounds_put(&b, &m->before);
    }
    return b;
}

static void lay_paper(struct paper *p, int size, int upright)
{
    p->name = papers[size].name;
    p->width = upright ? papers[size].shorter : papers[size].longer;
    p->height = upright ? papers[size].longer : papers[size].shorter;
    p->frame.left = file_margin;
    p->frame.top = margin;
    p->frame.right = p->width - margin;
    p->frame.bottom = p->height - margin;
    p->column = p->frame.right - column_wide;
    p->block = p->frame.bottom - block_high;
}

static void lay_map(struct sheet *s, const struct paper *p)
{
    s->width = p->width;
    s->height = p->height;
    s->left = p->frame.left + left_of_map;
    s->top = p->frame.top + above_map;
    s->right = p->column - beside_map;
    s->bottom = p->frame.bottom - below_map;
}

/* Names stand beside points rather than above and below them. */
static void fit_map(struct sheet *s, const struct bounds *b)
{
    s->top -= map_margin - map_above;
    s->bottom += map_margin - map_above;
    sheet_fit(s, b, map_margin);
    s->top += map_margin - map_above;
    s->bottom -= map_margin - map_above;
}

/* Upright if the scale is larger so. */
static void lay_sheet(struct plan *p, int size)
{
    struct bounds b = bounds_of(p);
    struct paper flat, upright;
    struct sheet s, other;

    lay_paper(&flat, size, 0);
    lay_paper(&upright, size, 1);
    lay_map(&s, &flat);
    lay_map(&other, &upright);
    fit_map(&s, &b);
    fit_map(&other, &b);
    p->paper = other.scale < s.scale ? upright : flat;
    p->main.sheet = other.scale < s.scale ? other : s;
}

/* ---- where a point is ---- */

int is_far_move(const struct mark *m)
{
    return m->change == MOVED && m->move.plane >= move_far;
}

/* A round number of millimetres, by which the longest vector fits. */
static double vectors_of(const struct plan *p)
{
    double most = 0;

    for (size_t i = 0; i < p->count; i++)
        if (p->marks[i].change == MOVED && !is_far_move(&p->marks[i]))
            most = fmax(most, p->marks[i].move.plane);
    return most < MOVE_LEAST ? 0 : round_up(most / vector_most);
}

/* To the edge of a frame from its middle, in the direction of a place that is
 * outside. */
static void put_at_edge(const struct sheet *s, struct label *l)
{
    double middle_x = (s->left + s->right) / 2;
    double middle_y = (s->top + s->bottom) / 2;
    double x = l->x - middle_x, y = l->y - middle_y;
    double part = fmax(fabs(x) / ((s->right - s->left) / 2 - edge),
                       fabs(y) / ((s->bottom - s->top) / 2 - edge));

    l->x = middle_x + x / part;
    l->y = middle_y + y / part;
}

/* The tip of a move to scale may be outside the frame, and is cut there. */
static void cut_tip(const struct sheet *s, struct label *l)
{
    double x = l->tip_x - l->x, y = l->tip_y - l->y;
    double part = 1;

    if (l->tip_x < s->left || l->tip_x > s->right)
        part = fmin(part, ((x < 0 ? s->left : s->right) - l->x) / x);
    if (l->tip_y < s->top || l->tip_y > s->bottom)
        part = fmin(part, ((y < 0 ? s->top : s->bottom) - l->y) / y);
    l->tip_x = l->x + x * part;
    l->tip_y = l->y + y * part;
}

static void lay_vector(const struct plan *p, const struct sheet *s,
                       const struct mark *m, struct label *l)
{
    if (m->change != MOVED || m->outlier)
        return;
    if (is_far_move(m)) {
        l->tip_x = sheet_x(s, m->before.east);
        l->tip_y = sheet_y(s, m->before.north);
        cut_tip(s, l);
    } else if (m->move.plane >= vector_least * p->vectors) {
        l->tip_x += m->move.east / p->vectors;
        l->tip_y -= m->move.north / p->vectors;
    }
}

struct label label_of(const struct plan *p, const struct view *v,
                      const struct mark *m)
{
    struct label l;

    memset(&l, 0, sizeof l);
    l.x = sheet_x(&v->sheet, m->at.east);
    l.y = sheet_y(&v->sheet, m->at.north);
    if (m->outlier)
        put_at_edge(&v->sheet, &l);
    l.tip_x = l.x;
    l.tip_y = l.y;
    lay_vector(p, &v->sheet, m, &l);
    return l;
}

/* ---- names ---- */

int view_room(struct view *v, size_t count)
{
    free(v->marks);
    free(v->labels);
    v->count = 0;
    v->marks = calloc(count + 1, sizeof *v->marks);
    v->labels = calloc(count + 1, sizeof *v->labels);
    return v->marks == NULL || v->labels == NULL ? -1 : 0;
}

/* The letter of a detail's frame on the plan stands above its left corner. */
struct area detail_area(const struct plan *p, const struct view *d)
{
    const struct sheet *s = &p->main.sheet;
    struct area a;

    a.left = sheet_x(s, d->ground.least.east) - 2.2;
    a.right = sheet_x(s, d->ground.most.east) + 2.2;
    a.top = sheet_y(s, d->ground.most.north) - 6.4;
    a.bottom = sheet_y(s, d->ground.least.north) + 2.2;
    a.right = fmax(a.right, a.left + 5);
    return a;
}

/* Names of that size in a view, whose marks are known. */
static int place_names(const struct plan *p, struct view *v, int size,
                       size_t detail)
{
    struct area taken[DETAILS_MOST];
    const struct sheet *s = &v->sheet;
    struct room room = { { s->left + 1, s->top + 1, s->right - 1,
                           s->bottom - 1 }, sizes[size].name,
                         sizes[size].mark * MARK_SIZE, lead_most, NULL, taken,
                         0, p->last };

    if (p->vectors > 0) /* a tolerance's circle */
        room.mark = fmax(room.mark, fmin(p->r.tolerance / p->vectors, 3));
    v->name_size = sizes[size].name;
    v->mark_size = sizes[size].mark;
    for (size_t i = 0; i < v->count; i++) {
        const struct mark *m = &p->marks[v->marks[i]];

        v->labels[i] = label_of(p, v, m);
        v->labels[i].width = m->detail == detail
            ? mono_width(m->text, v->name_size) : 0;
    }
    for (size_t i = 0; detail == 0 && i < p->detail_count; i++)
        taken[room.taken_count++] = detail_area(p, &p->details[i]);
    v->unnamed = labels_place(v->labels, v->count, &room);
    return v->unnamed < 0 ? out_of_memory() : DONE;
}

static size_t count_far(const struct view *v)
{
    size_t far = 0;

    for (size_t i = 0; i < v->count; i++)
        far += (size_t)v->labels[i].far;
    return far;
}

/* Few lines lead to names: one in ten, or three. */
int is_clear(const struct view *v)
{
    return v->unnamed == 0 && count_far(v) <= 3 + v->count / 10;
}

int place_view(const struct plan *p, struct view *v, size_t detail)
{
    for (int i = 0; i < SIZES; i++) {
        if (place_names(p, v, i, detail) != DONE)
            return TROUBLE;
        if (is_clear(v))
            break;
    }
    return DONE;
}

int place_main(struct plan *p)
{
    if (view_room(&p->main, p->count) != 0)
        return out_of_memory();
    for (size_t i = 0; i < p->count; i++)
        p->main.marks[i] = i;
    p->main.count = p->count;
    return place_view(p, &p->main, 0);
}

/* ---- all of it ---- */

static void count_named(struct plan *p)
{
    for (size_t i = 0; i < p->count; i++)
        p->marks[i].named = p->main.labels[i].placed;
    for (size_t d = 0; d < p->detail_count; d++)
        for (size_t i = 0; i < p->details[d].count; i++)
            if (p->details[d].labels[i].placed)
                p->marks[p->details[d].marks[i]].named = 1;
    p->unnamed = 0;
    for (size_t i = 0; i < p->count; i++)
        p->unnamed += !p->marks[i].named;
}

/* What has no place, and no detail helped, gets a line to where it is, with
 * others. */
static int place_last(struct plan *p)
{
    p->last = 1;
    if (p->main.unnamed > 0 && place_view(p, &p->main, 0) != DONE)
        return TROUBLE;
    for (size_t i = 0; i < p->detail_count; i++)
        if (p->details[i].unnamed > 0 &&
            place_view(p, &p->details[i], i + 1) != DONE)
            return TROUBLE;
    return DONE;
}

static int lay_views(struct plan *p)
{
    int added = 1;

    if (place_main(p) != DONE)
        return TROUBLE;
    /* A detail takes room on the plan, so that more may be needed. */
    for (int round = 0; round < 3 && added && !is_clear(&p->main); round++)
        if (add_details(p, &added) != DONE ||
            (added && place_main(p) != DONE))
            return TROUBLE;
    return place_last(p) == DONE ? put_details(p) : TROUBLE;
}

size_t plan_pages(const struct plan *p)
{
    return 1 + p->detail_pages + p->list_pages;
}

/* The list begins beside the plan, if it is not too wide for that, and goes on
 * on sheets of its own. */
static void lay_list(struct plan *p)
{
    size_t rows;

    p->beside_size = LIST_SIZE * fmin(1, (column_wide - 4) / p->row_wide);
    if (p->beside_size >= list_least)
        p->rows_beside = list_rows_beside(p);
    if (p->rows_beside > p->row_count)
        p->rows_beside = p->row_count;
    rows = p->rows_beside;
    for (size_t i = 0; rows < p->row_count; i++) {
        rows += list_rows(p, i % list_columns(p));
        p->list_pages = i / list_columns(p) + 1;
    }
}

int lay_plan(struct plan *p)
{
    int size = p->o->paper != NULL ? paper_read(p->o->paper) : USUAL;

    lay_sheet(p, size);
    p->vectors = vectors_of(p);
    if (lay_views(p) != DONE)
        return TROUBLE;
    count_named(p);
    if (list_make(p) != DONE)
        return TROUBLE;
    lay_list(p);
    return DONE;
}

static void view_free(struct view *v)
{
    free(v->marks);
    free(v->labels);
}

void views_free(struct plan *p)
{
    view_free(&p->main);
    for (size_t i = 0; i < DETAILS_MOST; i++)
        view_free(&p->details[i]);
    for (size_t i = 0; i < p->row_count; i++)
        free(p->rows[i]);
    free(p->rows);
}
