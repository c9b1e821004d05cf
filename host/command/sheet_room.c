/* Places for the details of a plan: on it where that is free, else on sheets
 * after it. */
#include "sheet_details.h"

#include <math.h>
#include <stdlib.h>

static const double detail_apart = 4;  /* millimetres between them */

struct area detail_room(const struct paper *p)
{
    struct area a = { p->frame.left + 5, p->frame.top + 5, p->column - 5,
                      p->frame.bottom - 5 };

    return a;
}

/* What is taken on the plan, in cells of a millimetre and a half; each number
 * is the sum of all cells above and left of it. */
struct sums {
    long *sums;
    long columns;
    long rows;
    const struct sheet *sheet;
};

static const double sum_cell = 1.5;

static long *sum_at(const struct sums *s, long column, long row)
{
    return &s->sums[row * (s->columns + 1) + column];
}

static long bounded(double at, long most)
{
    return at < 0 ? 0 : at > (double)most ? most : (long)at;
}

static void sums_take(struct sums *s, struct area a)
{
    long left = bounded(floor((a.left - s->sheet->left) / sum_cell),
                        s->columns);
    long right = bounded(ceil((a.right - s->sheet->left) / sum_cell),
                         s->columns);
    long top = bounded(floor((a.top - s->sheet->top) / sum_cell), s->rows);
    long bottom = bounded(ceil((a.bottom - s->sheet->top) / sum_cell),
                          s->rows);

    for (long y = top; y < bottom; y++)
        for (long x = left; x < right; x++)
            *sum_at(s, x + 1, y + 1) = 1;
}

static void take_line(struct sums *s, double x, double y, double to_x,
                      double to_y)
{
    int steps = 1 + (int)hypot(to_x - x, to_y - y);

    for (int i = 0; i <= steps; i++) {
        double at_x = x + (to_x - x) * i / steps;
        double at_y = y + (to_y - y) * i / steps;

        sums_take(s, (struct area){ at_x - 0.5, at_y - 0.5, at_x + 0.5,
                                    at_y + 0.5 });
    }
}

static void take_label(struct sums *s, const struct label *l, double high)
{
    sums_take(s, (struct area){ l->x - 2, l->y - 2, l->x + 2, l->y + 2 });
    take_line(s, l->x, l->y, l->tip_x, l->tip_y);
    if (!l->placed)
        return;
    sums_take(s, (struct area){ l->left - 1, l->top - 0.5,
                                l->left + l->width + 1, l->top + high + 0.5 });
    if (l->far)
        take_line(s, l->x, l->y, l->end_x, l->end_y);
}

static int sums_make(struct sums *s, const struct plan *p,
                     const struct area *more, size_t more_count)
{
    s->sheet = &p->main.sheet;
    s->columns = (long)((s->sheet->right - s->sheet->left) / sum_cell);
    s->rows = (long)((s->sheet->bottom - s->sheet->top) / sum_cell);
    s->sums = calloc((size_t)(s->columns + 1) * (size_t)(s->rows + 1),
                     sizeof *s->sums);
    if (s->sums == NULL)
        return -1;
    for (size_t i = 0; i < p->main.count; i++)
        take_label(s, &p->main.labels[i], p->main.name_size);
    for (size_t i = 0; i < p->detail_count; i++)
        sums_take(s, detail_area(p, &p->details[i]));
    for (size_t i = 0; i < more_count; i++)
        sums_take(s, more[i]);
    for (long y = 1; y <= s->rows; y++)
        for (long x = 1; x <= s->columns; x++)
            *sum_at(s, x, y) += *sum_at(s, x - 1, y) + *sum_at(s, x, y - 1) -
                                *sum_at(s, x - 1, y - 1);
    return 0;
}

/* The free rectangle of that size nearest to the plan's edge at the right and
 * above, as cells: 1, or 0. */
static int find_free(const struct sums *s, double wide, double high,
                     long *left, long *top)
{
    long w = (long)ceil(wide / sum_cell), h = (long)ceil(high / sum_cell);
    long best = -1;

    for (long y = 0; y + h <= s->rows; y++)
        for (long x = 0; x + w <= s->columns; x++) {
            long off = (s->columns - x - w) + y;

            if ((best < 0 || off < best) &&
                *sum_at(s, x + w, y + h) - *sum_at(s, x, y + h) -
                *sum_at(s, x + w, y) + *sum_at(s, x, y) == 0) {
                best = off;
                *left = x;
                *top = y;
            }
        }
    return best >= 0;
}

static void move_detail(struct view *v, double left, double top, size_t page)
{
    struct sheet *s = &v->sheet;

    for (size_t i = 0; i < v->count; i++) {
        struct label *l = &v->labels[i];

        l->x += left;
        l->tip_x += left;
        l->left += left;
        l->end_x += left;
        l->y += top;
        l->tip_y += top;
        l->top += top;
        l->end_y += top;
    }
    s->left += left;
    s->right += left;
    s->top += top;
    s->bottom += top;
    v->page = page;
}

/* Onto the plan where there is free room: 1, 0, or -1 for no memory. */
static int put_on_plan(struct plan *p, struct view *v, struct area *taken,
                       size_t *count)
{
    double wide = v->sheet.right + 4, high = v->sheet.bottom + DETAIL_HEAD + 3;
    struct sums s;
    long left, top;
    int found;

    if (sums_make(&s, p, taken, *count) != 0)
        return -1;
    found = find_free(&s, wide, high, &left, &top);
    free(s.sums);
    if (!found)
        return 0;
    taken[*count].left = p->main.sheet.left + (double)left * sum_cell;
    taken[*count].top = p->main.sheet.top + (double)top * sum_cell;
    taken[*count].right = taken[*count].left + wide;
    taken[*count].bottom = taken[*count].top + high;
    move_detail(v, taken[*count].left + 2, taken[*count].top + DETAIL_HEAD + 1,
                0);
    ++*count;
    return 1;
}

/* Onto sheets of their own, in rows. */
static void put_behind(struct plan *p, struct view *v, struct at *pen,
                       double *row)
{
    struct area room = detail_room(&p->paper);
    double wide = v->sheet.right, high = v->sheet.bottom + DETAIL_HEAD;

    if (p->detail_pages > 0 && pen->east + wide > room.right) {
        pen->east = room.left;
        pen->north += *row;
        *row = 0;
    }
    if (p->detail_pages == 0 || pen->north + high > room.bottom) {
        p->detail_pages++;
        pen->east = room.left;
        pen->north = room.top;
        *row = 0;
    }
    move_detail(v, pen->east, pen->north + DETAIL_HEAD, p->detail_pages);
    pen->east += wide + detail_apart;
    *row = fmax(*row, high + detail_apart);
}

int put_details(struct plan *p)
{
    struct area taken[DETAILS_MOST];
    size_t count = 0;
    struct at pen = { 0, 0 };
    double row = 0;

    for (size_t i = 0; i < p->detail_count; i++) {
        int done = put_on_plan(p, &p->details[i], taken, &count);

        if (done < 0)
            return out_of_memory();
        if (done == 0)
            put_behind(p, &p->details[i], &pen, &row);
    }
    return DONE;
}
