/* Places for names on a sheet: each takes the first free place around its
 * point, from near to far; those with the fewest places to choose from come
 * first, and a name in the way of another moves to a place that is as good.
 * What is taken is kept in a raster. */
#include "labels.h"

#include <math.h>
#include <stdint.h>
#include <stdlib.h>
#include <string.h>

#define PI 3.14159265358979323846

static const double cell = 0.25;      /* millimetres */
static const double ring_step = 2.4;
static const double square = 10;
static const double apart = 1.2;      /* points nearer than this are not told
                                         apart by lines that lead to them */
static const double same = 0.1;       /* and these stand on one place */
static const double owned = 1.3;      /* how much farther every other point is
                                         from a name without a line */
static const double gap = 0.7;        /* between a point and its name */
static const double side = 0.35;      /* kept free on a name's sides; with a
                                         cell less than the gap */

struct raster {
    unsigned char *taken;  /* by points, lines and the like */
    uint32_t *owner;       /* the name that stands there: its number and 1 */
    long columns;
    long rows;
    const struct area *area;
};

/* The cells from first to last, both of them inside the raster. */
struct cells {
    long left;
    long top;
    long right;
    long bottom;
};

static int raster_make(struct raster *r, const struct area *area)
{
    r->area = area;
    r->columns = (long)ceil((area->right - area->left) / cell);
    r->rows = (long)ceil((area->bottom - area->top) / cell);
    r->taken = calloc((size_t)r->columns * (size_t)r->rows, 1);
    r->owner = calloc((size_t)r->columns * (size_t)r->rows, sizeof *r->owner);
    return r->taken == NULL || r->owner == NULL ? -1 : 0;
}

/* Is the rectangle within the area? Its cells are rounded outwards. */
static int cells_of(const struct raster *r, const struct area *box,
                    struct cells *c)
{
    const struct area *a = r->area;

    if (box->left < a->left || box->top < a->top || box->right > a->right ||
        box->bottom > a->bottom)
        return 0;
    c->left = (long)floor((box->left - a->left) / cell);
    c->top = (long)floor((box->top - a->top) / cell);
    c->right = (long)ceil((box->right - a->left) / cell) - 1;
    c->bottom = (long)ceil((box->bottom - a->top) / cell) - 1;
    return c->right < r->columns && c->bottom < r->rows;
}

static int is_free(const struct raster *r, const struct cells *c)
{
    for (long y = c->top; y <= c->bottom; y++)
        if (memchr(r->taken + y * r->columns + c->left, 1,
                   (size_t)(c->right - c->left + 1)) != NULL)
            return 0;
    return 1;
}

static void take(struct raster *r, const struct cells *c)
{
    for (long y = c->top; y <= c->bottom; y++)
        memset(r->taken + y * r->columns + c->left, 1,
               (size_t)(c->right - c->left + 1));
}

/* The cells become a name's, or nobody's: owner is its number and 1, or 0. */
static void give(struct raster *r, const struct cells *c, uint32_t owner)
{
    for (long y = c->top; y <= c->bottom; y++)
        for (long x = c->left; x <= c->right; x++)
            r->owner[y * r->columns + x] = owner;
}

static int is_unowned(const struct raster *r, const struct cells *c)
{
    for (long y = c->top; y <= c->bottom; y++)
        for (long x = c->left; x <= c->right; x++)
            if (r->owner[y * r->columns + x] != 0)
                return 0;
    return 1;
}

#define SEVERAL UINT32_MAX

/* Whose the cells are: 0, the number and 1 of the one name that stands there,
 * or SEVERAL. */
static uint32_t owner_of(const struct raster *r, const struct cells *c)
{
    uint32_t found = 0;

    for (long y = c->top; y <= c->bottom; y++)
        for (long x = c->left; x <= c->right; x++) {
            uint32_t owner = r->owner[y * r->columns + x];

            if (owner != 0 && found != 0 && owner != found)
                return SEVERAL;
            found = owner != 0 ? owner : found;
        }
    return found;
}

/* ---- whose name it is ---- */

/* The points by squares of the sheet, so that those near a name are found. */
struct squares {
    const struct label *labels;
    const struct area *area;
    size_t *first;      /* of each square: a point's number and 1, or 0 */
    size_t *next;       /* the same of each point */
    long columns;
    long rows;
};

static long square_of(double at, double from, long most)
{
    double n = floor((at - from) / square);

    return n < 0 ? 0 : n >= (double)most ? most - 1 : (long)n;
}

static int squares_make(struct squares *q, const struct label *labels,
                        size_t count, const struct area *area)
{
    q->labels = labels;
    q->area = area;
    q->columns = (long)ceil((area->right - area->left) / square);
    q->rows = (long)ceil((area->bottom - area->top) / square);
    q->first = calloc((size_t)q->columns * (size_t)q->rows, sizeof *q->first);
    q->next = calloc(count + 1, sizeof *q->next);
    if (q->first == NULL || q->next == NULL)
        return -1;
    for (size_t i = 0; i < count; i++) {
        long x = square_of(labels[i].x, area->left, q->columns);
        long y = square_of(labels[i].y, area->top, q->rows);
        size_t *first = &q->first[y * q->columns + x];

        q->next[i] = *first;
        *first = i + 1;
    }
    return 0;
}

static void squares_free(struct squares *q)
{
    free(q->first);
    free(q->next);
}

/* From a point to the nearest place of a box. */
static double away(const struct area *box, const struct label *l)
{
    double x = fmax(fmax(box->left - l->x, l->x - box->right), 0);
    double y = fmax(fmax(box->top - l->y, l->y - box->bottom), 0);

    return hypot(x, y);
}

/* Is a point of this square, at another place than the name's own, nearer to
 * the box than that? */
static int is_nearer(const struct squares *q, size_t point,
                     const struct label *own, const struct area *box,
                     double near)
{
    for (; point != 0; point = q->next[point - 1]) {
        const struct label *l = &q->labels[point - 1];

        if (hypot(l->x - own->x, l->y - own->y) > same && away(box, l) < near)
            return 1;
    }
    return 0;
}

/* Is another point nearer to the box than that? */
static int is_another(const struct squares *q, const struct label *own,
                      const struct area *box, double near)
{
    long left = square_of(box->left - near, q->area->left, q->columns);
    long right = square_of(box->right + near, q->area->left, q->columns);
    long top = square_of(box->top - near, q->area->top, q->rows);
    long bottom = square_of(box->bottom + near, q->area->top, q->rows);

    for (long y = top; y <= bottom; y++)
        for (long x = left; x <= right; x++)
            if (is_nearer(q, q->first[y * q->columns + x], own, box, near))
                return 1;
    return 0;
}

/* Would a reader take the name in this box for its own point's? */
static int is_own(const struct squares *q, const struct label *own,
                  const struct area *box)
{
    return !is_another(q, own, box, owned * away(box, own));
}

/* Is another point so near to this one that no line tells them apart? */
static int is_crowded(const struct squares *q, const struct label *own)
{
    struct area box = { own->x, own->y, own->x, own->y };

    return is_another(q, own, &box, apart);
}

/* ---- places ---- */

enum { NEAR = 16, DEPTH = 4 };

/* A name's places beside its point. */
struct choice {
    unsigned places;    /* bits of those where it would be read right */
    int locked;         /* it must not move now */
};

struct work {
    struct raster raster;
    struct squares squares;
    const struct room *room;
    struct label *labels;
    struct choice *choices;
    size_t count;
    size_t *leads;      /* labels that have a line */
    size_t lead_count;
};

/* The cells of a name with what is kept free at its sides; 0 if that is not all
 * in the area. */
static int name_cells(const struct work *w, const struct label *l, double left,
                      double top, struct cells *c)
{
    struct area box = { left - side, top, left + l->width + side,
                        top + w->room->height };

    return cells_of(&w->raster, &box, c);
}

static size_t number_of(const struct work *w, const struct label *l)
{
    return (size_t)(l - w->labels);
}

static void put_name(struct work *w, struct label *l, double left, double top)
{
    struct cells c;

    if (name_cells(w, l, left, top, &c))
        give(&w->raster, &c, (uint32_t)number_of(w, l) + 1);
    l->left = left;
    l->top = top;
    l->placed = 1;
}

static void lift_name(struct work *w, struct label *l)
{
    struct cells c;

    if (name_cells(w, l, l->left, l->top, &c))
        give(&w->raster, &c, 0);
    l->placed = 0;
}

/* ---- beside the point ---- */

/* Place number i beside the point, above and below it. */
static void near_place(const struct work *w, const struct label *l, int i,
                       double *left, double *top)
{
    double high = w->room->height, mark = w->room->mark, off = mark + gap;
    const double places[NEAR][2] = {
        { off, -high / 2 },
        { off, -high - mark / 2 },
        { off, mark / 2 },
        { -off - l->width, -high / 2 },
        { -off - l->width, -high - mark / 2 },
        { -off - l->width, mark / 2 },
        { -l->width / 2, -off - high },
        { -l->width / 2, off },
        { -mark, -off - high },
        { -mark, off },
        { mark - l->width, -off - high },
        { mark - l->width, off },
        { -l->width / 4, -off - high },
        { -l->width / 4, off },
        { -l->width * 3 / 4, -off - high },
        { -l->width * 3 / 4, off }
    };

    *left = l->x + places[i][0];
    *top = l->y + places[i][1];
}

/* Would the name be read right there, names apart? */
static int is_right(const struct work *w, const struct label *l, double left,
                    double top)
{
    struct area box = { left, top, left + l->width, top + w->room->height };
    struct cells c;

    return name_cells(w, l, left, top, &c) && is_free(&w->raster, &c) &&
           is_own(&w->squares, l, &box);
}

static void find_choice(const struct work *w, const struct label *l,
                        struct choice *choice)
{
    double left, top;

    for (int i = 0; i < NEAR && l->width > 0; i++) {
        near_place(w, l, i, &left, &top);
        if (is_right(w, l, left, top))
            choice->places |= 1u << i;
    }
}

/* At one of its places that is free. */
static int try_free(struct work *w, struct label *l)
{
    double left, top;
    struct cells c;

    for (int i = 0; i < NEAR; i++) {
        if (!(w->choices[number_of(w, l)].places & 1u << i))
            continue;
        near_place(w, l, i, &left, &top);
        if (name_cells(w, l, left, top, &c) && is_unowned(&w->raster, &c)) {
            put_name(w, l, left, top);
            return 1;
        }
    }
    return 0;
}

static int try_near(struct work *w, struct label *l, int depth);

/* At the place of one other name, if that finds another one. */
static int try_instead(struct work *w, struct label *l, double left,
                       double top, int depth)
{
    struct cells c;
    uint32_t owner;
    struct label *other;
    double old_left, old_top;

    if (!name_cells(w, l, left, top, &c))
        return 0;
    owner = owner_of(&w->raster, &c);
    if (owner == 0 || owner == SEVERAL || w->choices[owner - 1].locked)
        return 0;
    other = &w->labels[owner - 1];
    old_left = other->left;
    old_top = other->top;
    lift_name(w, other);
    put_name(w, l, left, top);
    w->choices[number_of(w, l)].locked = 1;
    if (try_near(w, other, depth - 1)) {
        w->choices[number_of(w, l)].locked = 0;
        return 1;
    }
    w->choices[number_of(w, l)].locked = 0;
    lift_name(w, l);
    put_name(w, other, old_left, old_top);
    return 0;
}

static int try_near(struct work *w, struct label *l, int depth)
{
    double left, top;

    if (try_free(w, l))
        return 1;
    for (int i = 0; i < NEAR && depth > 0; i++) {
        if (!(w->choices[number_of(w, l)].places & 1u << i))
            continue;
        near_place(w, l, i, &left, &top);
        if (try_instead(w, l, left, top, depth))
            return 1;
    }
    return 0;
}

/* ---- at the end of a line ---- */

/* Twice the area of a triangle; its sign says on which side of the first two
 * the third is. */
static double side_of(double ax, double ay, double bx, double by, double cx,
                      double cy)
{
    return (bx - ax) * (cy - ay) - (by - ay) * (cx - ax);
}

/* Do the lines of two labels meet? From one and the same place they do not. */
static int do_cross(const struct label *a, const struct label *b)
{
    if (hypot(a->x - b->x, a->y - b->y) < 1e-6)
        return 0;
    return side_of(a->x, a->y, a->end_x, a->end_y, b->x, b->y) *
           side_of(a->x, a->y, a->end_x, a->end_y, b->end_x, b->end_y) <= 0 &&
           side_of(b->x, b->y, b->end_x, b->end_y, a->x, a->y) *
           side_of(b->x, b->y, b->end_x, b->end_y, a->end_x, a->end_y) <= 0;
}

/* The cell of a place of the line, or -1 where it is not asked for: on the
 * point's own mark. */
static long line_cell(const struct work *w, const struct label *l, double part)
{
    const struct raster *r = &w->raster;
    double x = l->x + (l->end_x - l->x) * part;
    double y = l->y + (l->end_y - l->y) * part;
    double own = w->room->mark + cell;
    long column = (long)floor((x - r->area->left) / cell);
    long row = (long)floor((y - r->area->top) / cell);

    if ((fabs(x - l->x) <= own && fabs(y - l->y) <= own) || column < 0 ||
        row < 0 || column >= r->columns || row >= r->rows)
        return -1;
    return row * r->columns + column;
}

static long line_steps(const struct label *l)
{
    return 1 + (long)ceil(3 * hypot(l->end_x - l->x, l->end_y - l->y) / cell);
}

/* Does the line of a label pass over nothing, and cross no other? */
static int is_line_free(const struct work *w, const struct label *l)
{
    long steps = line_steps(l);

    for (long i = 0; i < steps; i++) {
        long at = line_cell(w, l, (double)i / (double)steps);

        if (at >= 0 && (w->raster.taken[at] || w->raster.owner[at] != 0))
            return 0;
    }
    for (size_t i = 0; i < w->lead_count; i++)
        if (do_cross(l, &w->labels[w->leads[i]]))
            return 0;
    return 1;
}

static void take_lead(struct work *w, const struct label *l)
{
    long steps = line_steps(l);

    for (long i = 0; i <= steps; i++) {
        long at = line_cell(w, l, (double)i / (double)steps);

        if (at >= 0)
            w->raster.taken[at] = 1;
    }
    w->leads[w->lead_count++] = (size_t)(l - w->labels);
}

/* The line ends at the nearest edge of the name. */
static int try_at_line(struct work *w, struct label *l, double left,
                       double top)
{
    struct cells c;

    if (!name_cells(w, l, left, top, &c) || !is_free(&w->raster, &c) ||
        !is_unowned(&w->raster, &c))
        return 0;
    l->end_x = fmin(fmax(l->x, left), left + l->width);
    l->end_y = fmin(fmax(l->y, top), top + w->room->height);
    if (!is_line_free(w, l))
        return 0;
    put_name(w, l, left, top);
    take_lead(w, l);
    l->far = 1;
    return 1;
}

/* With the name's middle on an oval around the point. */
static int try_oval(struct work *w, struct label *l, double radius)
{
    double high = w->room->height;
    int steps = 16 + (int)(radius * 2);

    for (int i = 0; i < steps; i++) {
        double angle = 2 * PI * i / steps;
        double x = l->x + cos(angle) * (radius + l->width / 2);
        double y = l->y - sin(angle) * (radius + high / 2);

        if (try_at_line(w, l, x - l->width / 2, y - high / 2))
            return 1;
    }
    return 0;
}

static int try_far(struct work *w, struct label *l)
{
    const struct room *r = w->room;

    if (!r->last && is_crowded(&w->squares, l))
        return 0;
    for (double radius = r->mark + 2; radius <= r->reach; radius += ring_step)
        if (try_oval(w, l, radius))
            return 1;
    return 0;
}

/* ---- what is taken before any name ---- */

static void take_area(struct raster *r, const struct area *box)
{
    struct area in = *box;
    struct cells c;

    in.left = fmax(in.left, r->area->left);
    in.top = fmax(in.top, r->area->top);
    in.right = fmin(in.right, r->area->left + cell * (double)r->columns - 1e-6);
    in.bottom = fmin(in.bottom, r->area->top + cell * (double)r->rows - 1e-6);
    in.right = fmin(in.right, r->area->right);
    in.bottom = fmin(in.bottom, r->area->bottom);
    if (in.left < in.right && in.top < in.bottom && cells_of(r, &in, &c))
        take(r, &c);
}

static void take_square(struct raster *r, double x, double y, double half)
{
    struct area box = { x - half, y - half, x + half, y + half };

    take_area(r, &box);
}

static void take_tip(struct raster *r, const struct label *l)
{
    double x = l->tip_x - l->x, y = l->tip_y - l->y;
    int steps = (int)ceil(hypot(x, y));

    for (int i = 1; i <= steps; i++)
        take_square(r, l->x + x * i / steps, l->y + y * i / steps, 0.7);
}

/* The part of the ring that may be in the area. */
static void take_ring(struct raster *r, const struct ring *ring)
{
    long steps = ring == NULL ? 0 : (long)ceil(2 * PI * ring->radius / 0.5);

    for (long i = 0; i < steps; i++) {
        double angle = 2 * PI * (double)i / (double)steps;

        take_square(r, ring->x + ring->radius * cos(angle),
                    ring->y + ring->radius * sin(angle), 0.5);
    }
}

static void take_all(struct work *w)
{
    take_ring(&w->raster, w->room->ring);
    for (size_t i = 0; i < w->room->taken_count; i++)
        take_area(&w->raster, &w->room->taken[i]);
    for (size_t i = 0; i < w->count; i++) {
        take_square(&w->raster, w->labels[i].x, w->labels[i].y, w->room->mark);
        take_tip(&w->raster, &w->labels[i]);
    }
}

/* ---- all of them ---- */

static int places_in(unsigned bits)
{
    int places = 0;

    for (; bits != 0; bits &= bits - 1)
        places++;
    return places;
}

/* The labels by how many places they can choose from; `order` has their
 * numbers. */
static void put_in_order(const struct work *w, size_t *order)
{
    size_t k = 0;

    for (int places = 0; places <= NEAR; places++)
        for (size_t i = 0; i < w->count; i++)
            if (places_in(w->choices[i].places) == places)
                order[k++] = i;
}

/* All beside their points, as far as that goes; then with one name moved for
 * another; then at lines. */
static long place_all(struct work *w, const size_t *order)
{
    long missing = 0;

    for (size_t i = 0; i < w->count; i++)
        try_free(w, &w->labels[order[i]]);
    for (size_t i = 0; i < w->count; i++)
        if (!w->labels[order[i]].placed)
            try_near(w, &w->labels[order[i]], DEPTH);
    for (size_t i = 0; i < w->count; i++) {
        struct label *l = &w->labels[order[i]];

        if (l->width > 0 && !l->placed && !try_far(w, l))
            missing++;
    }
    return missing;
}

static long place_with(struct work *w, size_t *order)
{
    for (size_t i = 0; i < w->count; i++)
        w->labels[i].placed = w->labels[i].far = 0;
    take_all(w);
    for (size_t i = 0; i < w->count; i++)
        find_choice(w, &w->labels[i], &w->choices[i]);
    put_in_order(w, order);
    return place_all(w, order);
}

long labels_place(struct label *labels, size_t count, const struct room *room)
{
    struct work w;
    size_t *order = calloc(count + 1, sizeof *order);
    long missing = -1;

    memset(&w, 0, sizeof w);
    w.room = room;
    w.labels = labels;
    w.count = count;
    w.choices = calloc(count + 1, sizeof *w.choices);
    w.leads = calloc(count + 1, sizeof *w.leads);
    if (order != NULL && w.choices != NULL && w.leads != NULL &&
        raster_make(&w.raster, &room->area) == 0 &&
        squares_make(&w.squares, labels, count, &room->area) == 0)
        missing = place_with(&w, order);
    squares_free(&w.squares);
    free(w.raster.taken);
    free(w.raster.owner);
    free(w.choices);
    free(w.leads);
    free(order);
    return missing;
}
