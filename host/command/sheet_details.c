/* Details of a plan: what is too dense for its names is drawn at a scale at
 * which they have a place, in as many parts as sheets need. */
#include "sheet_details.h"

#include <math.h>
#include <stdlib.h>
#include <string.h>

/* ---- one detail ---- */

static const double detail_wide = 16;  /* left and right of its points */
static const double detail_high = 9;   /* above and below them */

void detail_letter(char to[8], size_t detail)
{
    if (detail < 26)
        snprintf(to, 8, "%c", (char)('A' + detail));
    else
        snprintf(to, 8, "%c%c", (char)('A' + detail / 26 - 1),
                 (char)('A' + detail % 26));
}

static int is_within(const struct bounds *b, const struct at *at, double more)
{
    return at->east >= b->least.east - more &&
           at->east <= b->most.east + more &&
           at->north >= b->least.north - more &&
           at->north <= b->most.north + more;
}

/* Everything that is in the frame of a view. */
static int fill_view(const struct plan *p, struct view *v)
{
    const struct sheet *s = &v->sheet;

    if (view_room(v, p->count) != 0)
        return out_of_memory();
    for (size_t i = 0; i < p->count; i++) {
        double x = sheet_x(s, p->marks[i].at.east);
        double y = sheet_y(s, p->marks[i].at.north);

        if (!p->marks[i].outlier && x > s->left && x < s->right &&
            y > s->top && y < s->bottom)
            v->marks[v->count++] = i;
    }
    return DONE;
}

static size_t count_within(const struct plan *p, const struct bounds *b)
{
    size_t count = 0;

    for (size_t i = 0; i < p->count; i++)
        count += !p->marks[i].outlier && p->marks[i].detail == 0 &&
                 is_within(b, &p->marks[i].at, 0);
    return count;
}

static size_t count_members(const struct plan *p, size_t detail)
{
    size_t count = 0;

    for (size_t i = 0; i < p->count; i++)
        count += p->marks[i].detail == detail;
    return count;
}

/* The points in the bounds become this detail's, or the plan's again. */
static void give_marks(struct plan *p, const struct bounds *b, size_t from,
                       size_t to)
{
    for (size_t i = 0; i < p->count; i++)
        if (!p->marks[i].outlier && p->marks[i].detail == from &&
            is_within(b, &p->marks[i].at, 0))
            p->marks[i].detail = to;
}

static void size_detail(struct view *v, double scale)
{
    const struct bounds *b = &v->ground;
    double wide = (b->most.east - b->least.east) * 1000 / scale;
    double high = (b->most.north - b->least.north) * 1000 / scale;

    v->sheet.left = 0;
    v->sheet.top = 0;
    v->sheet.right = fmax(wide + 2 * detail_wide, 44);
    v->sheet.bottom = fmax(high + 2 * detail_high, 30);
    v->sheet.scale = scale;
    v->sheet.middle.east = (b->least.east + b->most.east) / 2;
    v->sheet.middle.north = (b->least.north + b->most.north) / 2;
}

static int does_fit(const struct view *v, const struct area *room)
{
    return v->sheet.right <= room->right - room->left &&
           v->sheet.bottom + DETAIL_HEAD <= room->bottom - room->top;
}

/* The next larger scale for which there are rulers. */
static double next_scale(double scale)
{
    static const double steps[] = { 7.5, 5, 4, 3, 2.5, 2, 1.5, 1.25, 1, 0.75 };
    double unit = pow(10, floor(log10(scale) + 1e-9));
    int i = 0;

    while (steps[i] * unit >= scale * (1 - 1e-9))
        i++;
    return steps[i] * unit;
}

/* Would its names not fit even side by side? */
static int is_hopeless(const struct view *v, size_t names)
{
    const double name = 16; /* square millimetres of a short one */

    return (v->sheet.right - detail_wide) * (v->sheet.bottom - detail_high) <
           (double)names * name;
}

/* Draws a detail at a scale: DONE, or TROUBLE. */
static int try_scale(struct plan *p, struct view *v, size_t number,
                     double scale)
{
    size_detail(v, scale);
    return fill_view(p, v) == DONE ? place_view(p, v, number) : TROUBLE;
}

static int is_same(const struct bounds *a, const struct bounds *b)
{
    return a->least.east == b->least.east && a->most.east == b->most.east &&
           a->least.north == b->least.north && a->most.north == b->most.north;
}

/* The scale that a detail of these bounds had in the round before; 0 for
 * none. */
static double known_scale(const struct plan *p, const struct bounds *b)
{
    for (size_t i = 0; i < p->known_count; i++)
        if (is_same(&p->known[i].ground, b))
            return p->known[i].scale;
    return 0;
}

/* Tries scales until all names have a place, few of them at lines; else takes
 * the one with the fewest names that have none, if that is one in twenty at
 * most. 1 if one does, 0 if none does, -1 for no memory. */
static int scale_detail(struct plan *p, struct view *v, size_t number)
{
    struct area room = detail_room(&p->paper);
    double scale = next_scale(p->main.sheet.scale), does = 0;
    long least = 1 + (long)count_members(p, number) / 20;
    double known = known_scale(p, &v->ground);

    if (known > 0)
        return try_scale(p, v, number, known) == DONE ? 1 : -1;
    for (; scale >= 10; scale = next_scale(scale)) {
        size_detail(v, scale);
        if (!does_fit(v, &room))
            break;
        if (is_hopeless(v, count_members(p, number)))
            continue;
        if (try_scale(p, v, number, scale) != DONE)
            return -1;
        if (is_clear(v))
            return 1;
        if (v->unnamed < least) {
            least = v->unnamed;
            does = scale;
        }
    }
    if (does == 0)
        return 0;
    return try_scale(p, v, number, does) == DONE ? 1 : -1;
}

static int by_number(const void *a, const void *b)
{
    double left = *(const double *)a, right = *(const double *)b;

    return left < right ? -1 : left > right;
}

/* The bounds of those points in `b` that are on one side of a line. */
static struct bounds half_of(const struct plan *p, const struct bounds *b,
                             int across, double line, int upper)
{
    struct bounds half;

    memset(&half, 0, sizeof half);
    for (size_t i = 0; i < p->count; i++) {
        const struct at *at = &p->marks[i].at;

        if (!p->marks[i].outlier && p->marks[i].detail == 0 &&
            is_within(b, at, 0) &&
            ((across ? at->east : at->north) > line) == upper)
            bounds_put(&half, at);
    }
    return half;
}

/* The line between the two halves of the points, across the longer side. */
static int split_line(const struct plan *p, const struct bounds *b,
                      int *across, double *line)
{
    double *all = calloc(p->count + 1, sizeof *all);
    size_t count = 0;

    if (all == NULL)
        return -1;
    *across = b->most.east - b->least.east > b->most.north - b->least.north;
    for (size_t i = 0; i < p->count; i++) {
        const struct at *at = &p->marks[i].at;

        if (!p->marks[i].outlier && p->marks[i].detail == 0 &&
            is_within(b, at, 0))
            all[count++] = *across ? at->east : at->north;
    }
    qsort(all, count, sizeof *all, by_number);
    *line = count == 0 ? 0 : all[(count - 1) / 2];
    free(all);
    return 0;
}

enum { DEEP = 10 };

/* Makes a detail of the bounds, or two of its halves where one would be too
 * large for a sheet: 0, or -1 for no memory. */
static int add_detail(struct plan *p, const struct bounds *b, int depth)
{
    struct view *v = &p->details[p->detail_count];
    struct bounds half;
    int across, done;
    double line;

    if (p->detail_count == DETAILS_MOST || count_within(p, b) == 0)
        return 0;
    v->ground = *b;
    give_marks(p, b, 0, p->detail_count + 1);
    done = scale_detail(p, v, p->detail_count + 1);
    if (done > 0) {
        p->detail_count++;
        return 0;
    }
    give_marks(p, b, p->detail_count + 1, 0);
    if (done < 0)
        return -1;
    if (depth == DEEP || split_line(p, b, &across, &line) != 0)
        return depth == DEEP ? 0 : -1;
    for (int upper = 0; upper < 2; upper++) {
        half = half_of(p, b, across, line, upper);
        /* What cannot be split any more is left to the list. */
        if (half.any && !is_same(&half, b) &&
            add_detail(p, &half, depth + 1) != 0)
            return -1;
    }
    return 0;
}

/* ---- what is too dense ---- */

static const double link_wide = 14;    /* names farther apart have one cluster
                                          each, in millimetres of the plan */
enum { CLUSTERED_MOST = 4000 };

/* A point that the plan cannot name, or only at one line of too many. */
static int is_dense(const struct plan *p, size_t i, int with_far)
{
    const struct label *l = &p->main.labels[i];

    return l->width > 0 && !p->marks[i].outlier &&
           (!l->placed || (with_far && l->far));
}

/* Joins the clusters of points near each other: of[i] is the number of point
 * i's. */
static void join(const struct plan *p, size_t *of, const size_t *dense,
                 size_t count)
{
    for (size_t i = 0; i < count; i++)
        of[i] = i;
    for (size_t i = 0; i < count; i++)
        for (size_t j = 0; j < i; j++) {
            const struct label *a = &p->main.labels[dense[i]];
            const struct label *b = &p->main.labels[dense[j]];
            size_t from = of[i], to = of[j];

            if (from == to || fabs(a->x - b->x) > link_wide ||
                fabs(a->y - b->y) > link_wide / 2)
                continue;
            for (size_t k = 0; k <= i; k++)
                if (of[k] == from)
                    of[k] = to;
        }
}

/* Points so near to the frame of a detail that their names would be in its way
 * come into it. */
static void absorb(const struct plan *p, struct bounds *b)
{
    double more = 3 * p->main.sheet.scale / 1000;
    int grown = 1;

    while (grown) {
        grown = 0;
        for (size_t i = 0; i < p->count; i++)
            if (!p->marks[i].outlier && !is_within(b, &p->marks[i].at, 0) &&
                is_within(b, &p->marks[i].at, more)) {
                bounds_put(b, &p->marks[i].at);
                grown = 1;
            }
    }
}

static int do_overlap(const struct bounds *a, const struct bounds *b,
                      double more)
{
    return a->least.east <= b->most.east + more &&
           b->least.east <= a->most.east + more &&
           a->least.north <= b->most.north + more &&
           b->least.north <= a->most.north + more;
}

/* Bounds whose frames would touch on the plan become one. */
static void merge_bounds(const struct plan *p, struct bounds *all,
                         size_t *count)
{
    double more = 6 * p->main.sheet.scale / 1000;

    for (size_t i = 0; i < *count; i++)
        for (size_t j = 0; j < i; j++) {
            if (!do_overlap(&all[i], &all[j], more))
                continue;
            bounds_put(&all[j], &all[i].least);
            bounds_put(&all[j], &all[i].most);
            all[i] = all[--*count];
            i = j = (size_t)-1;
            break;
        }
}

static int add_clusters(struct plan *p, size_t *dense, size_t count,
                        size_t *of, struct bounds *all)
{
    size_t clusters = 0;

    for (size_t i = 0; i < p->detail_count; i++)
        all[clusters++] = p->details[i].ground;
    join(p, of, dense, count);
    for (size_t i = 0; i < count; i++) {
        struct bounds b;

        memset(&b, 0, sizeof b);
        for (size_t k = 0; k < count; k++)
            if (of[k] == i)
                bounds_put(&b, &p->marks[dense[k]].at);
        if (!b.any)
            continue;
        absorb(p, &b);
        all[clusters++] = b;
    }
    merge_bounds(p, all, &clusters);
    /* Made anew, since one may have grown into another. */
    for (size_t i = 0; i < p->detail_count; i++) {
        p->known[i].ground = p->details[i].ground;
        p->known[i].scale = p->details[i].sheet.scale;
    }
    p->known_count = p->detail_count;
    p->detail_count = 0;
    for (size_t i = 0; i < p->count; i++)
        p->marks[i].detail = 0;
    for (size_t i = 0; i < clusters; i++)
        if (add_detail(p, &all[i], 0) != 0)
            return out_of_memory();
    return DONE;
}

/* Details of what is too dense on the plan: DONE, or TROUBLE. `added` tells
 * whether there was any. */
int add_details(struct plan *p, int *added)
{
    size_t count = 0;
    int with_far = !is_clear(&p->main);
    size_t *dense = calloc(p->count + 1, sizeof *dense);
    size_t *of = calloc(p->count + 1, sizeof *of);
    struct bounds *all = calloc(p->count + DETAILS_MOST + 1, sizeof *all);
    int status = DONE;

    for (size_t i = 0; dense != NULL && i < p->count; i++)
        if (is_dense(p, i, with_far))
            dense[count++] = i;
    if (dense == NULL || of == NULL || all == NULL)
        status = out_of_memory();
    else if (count > 0 && count <= CLUSTERED_MOST)
        status = add_clusters(p, dense, count, of, all);
    *added = count > 0 && p->detail_count > 0;
    free(dense);
    free(of);
    free(all);
    return status;
}
