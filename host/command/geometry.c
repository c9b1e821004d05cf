/* The figure of a resection.
 *
 * Directions r_i of equal weight with an unknown orientation o: the observation
 * equation of azimuths (C. D. Ghilani, Adjustment Computations, chapter on
 * triangulation) less the orientation (W. Niemeier, Ausgleichungsrechnung, on
 * directions):
 *
 *     r_i + v_i = t_i(E, N) - o,    t_i = atan2(E_i - E, N_i - N)
 *     dt_i/dE = -cos t_i / s_i,     dt_i/dN = sin t_i / s_i
 *
 * The orientation is eliminated by Schreiber's reduction: each column less its
 * mean. What is left are normal equations of two unknowns, whose inverse is
 * the station's cofactor matrix; its axes are those of Helmert's error ellipse
 * (both books, on error ellipses).
 *
 * The danger circle: (sin t_i, cos t_i) / s_i is the point's image under
 * inversion in the unit circle about the station (H. S. M. Coxeter,
 * Introduction to Geometry, section 6.1), and the normal matrix is the scatter
 * of these images, turned by a right angle. It is singular if and only if they
 * lie in line, and a line is the image of a circle through the station, or of a line
 * through it. So the same numbers tell where to begin: the circle along whose
 * tangent the weakest direction is. It weighs a point by one over the square of
 * its distance, so that one near point turns it; from there on the distances of
 * the points from the circle itself are made small, by Gauss's steps with
 * Marquardt's damping (Niemeier, on nonlinear adjustment). */
#include "geometry.h"

#include <math.h>
#include <stdlib.h>

#define PI 3.14159265358979323846
#define ON_POINT 0.001    /* metres */
#define NARROW (2 * PI / 3)
#define NEAR_CIRCLE 0.2   /* of the radius or the median distance, and of each
                             point's own: near the station all are near it */
#define NEAR_LINE 0.1     /* of the length */
#define LARGE_CIRCLE 4    /* lengths: a larger radius is that of a line */
#define STEPS 60

static double distance(const struct at *a, const struct at *b)
{
    return hypot(b->east - a->east, b->north - a->north);
}

/* ---- circle ---- */

int circle_through(const struct at p[3], struct circle *c)
{
    double bx = p[1].east - p[0].east, by = p[1].north - p[0].north;
    double cx = p[2].east - p[0].east, cy = p[2].north - p[0].north;
    double bb = bx * bx + by * by, cc = cx * cx + cy * cy;
    double cross = 2 * (bx * cy - by * cx);
    double x, y;

    if (fabs(cross) <= 1e-12 * (bb + cc))
        return 0;
    x = (cy * bb - by * cc) / cross;
    y = (bx * cc - cx * bb) / cross;
    c->centre.east = p[0].east + x;
    c->centre.north = p[0].north + y;
    c->radius = hypot(x, y);
    return 1;
}

/* ---- scatter about a line ---- */

struct pair {
    double x;
    double y;
};

struct scatter {
    struct pair mean;
    struct pair along;   /* unit vector of the line */
    double most;         /* sum of the squares along it */
    double least;        /* and across it */
};

static struct pair mean_of(const struct pair *p, size_t count)
{
    struct pair sum = { 0, 0 };

    for (size_t i = 0; i < count; i++) {
        sum.x += p[i].x / (double)count;
        sum.y += p[i].y / (double)count;
    }
    return sum;
}

static double along(const struct scatter *s, const struct pair *p)
{
    return (p->x - s->mean.x) * s->along.x + (p->y - s->mean.y) * s->along.y;
}

static double across(const struct scatter *s, const struct pair *p)
{
    return (p->y - s->mean.y) * s->along.x - (p->x - s->mean.x) * s->along.y;
}

static struct pair axis_of(const struct pair *p, size_t count,
                           const struct pair *mean)
{
    double xx = 0, yy = 0, xy = 0, angle;
    struct pair axis;

    for (size_t i = 0; i < count; i++) {
        double x = p[i].x - mean->x, y = p[i].y - mean->y;

        xx += x * x;
        yy += y * y;
        xy += x * y;
    }
    angle = atan2(2 * xy, xx - yy) / 2;
    axis.x = cos(angle);
    axis.y = sin(angle);
    return axis;
}

/* The sums are taken over the distances from the line, so that a small one
 * does not drown in the other's rounding. */
static struct scatter scatter_of(const struct pair *p, size_t count)
{
    struct scatter s = { { 0, 0 }, { 1, 0 }, 0, 0 };

    s.mean = mean_of(p, count);
    s.along = axis_of(p, count, &s.mean);
    for (size_t i = 0; i < count; i++) {
        s.most += along(&s, &p[i]) * along(&s, &p[i]);
        s.least += across(&s, &p[i]) * across(&s, &p[i]);
    }
    return s;
}

static struct row row_of(const struct pair *p, size_t count)
{
    struct scatter s = scatter_of(p, count);
    struct row row = { 0, 0 };
    double first = 0, last = 0;

    for (size_t i = 0; i < count; i++) {
        double place = along(&s, &p[i]);
        double off = fabs(across(&s, &p[i]));

        first = place < first ? place : first;
        last = place > last ? place : last;
        row.off = off > row.off ? off : row.off;
    }
    row.length = last - first;
    return row;
}

/* ---- directions ---- */

static int by_bearing(const void *a, const void *b)
{
    const struct ray *left = a, *right = b;

    if (left->bearing != right->bearing)
        return left->bearing < right->bearing ? -1 : 1;
    return left->point < right->point ? -1 : 1;
}

static int by_number(const void *a, const void *b)
{
    double left = *(const double *)a, right = *(const double *)b;

    return left < right ? -1 : left > right;
}

static void aim(struct figure *f, const struct at *station,
                const struct at *points)
{
    for (size_t i = 0; i < f->count; i++) {
        struct ray *r = &f->rays[i];

        r->point = i;
        r->distance = distance(station, &points[i]);
        r->bearing = atan2(points[i].east - station->east,
                           points[i].north - station->north);
        if (r->bearing < 0)
            r->bearing += 2 * PI;
        if (r->distance < ON_POINT)
            f->reasons |= REASON_ON_POINT;
    }
    qsort(f->rays, f->count, sizeof *f->rays, by_bearing);
}

static void measure_gaps(struct figure *f)
{
    for (size_t i = 0; i < f->count; i++) {
        const struct ray *next = &f->rays[(i + 1) % f->count];
        double gap = next->bearing - f->rays[i].bearing;

        if (i + 1 == f->count)
            gap += 2 * PI;
        f->rays[i].gap = gap;
        f->widest_gap = gap > f->widest_gap ? gap : f->widest_gap;
    }
    f->sector = 2 * PI - f->widest_gap;
}

static int measure_median(struct figure *f)
{
    double *all = calloc(f->count, sizeof *all);
    size_t half = f->count / 2;

    if (all == NULL)
        return -1;
    for (size_t i = 0; i < f->count; i++)
        all[i] = f->rays[i].distance;
    qsort(all, f->count, sizeof *all, by_number);
    f->median = f->count % 2 == 1 ? all[half] : (all[half - 1] + all[half]) / 2;
    free(all);
    return 0;
}

/* Counts the different places, and keeps the first two points on one. */
static void find_places(struct figure *f, const struct at *p)
{
    for (size_t i = 0; i < f->count; i++) {
        size_t j = 0;

        while (j < i && distance(&p[i], &p[j]) >= ON_POINT)
            j++;
        if (j < i && f->places == i) {
            f->twin[0] = j;
            f->twin[1] = i;
        }
        f->places += j == i;
    }
}

/* ---- strength ---- */

/* The points' images under inversion about the station, the median distance
 * as unit. */
static void invert(struct pair *images, const struct figure *f)
{
    for (size_t i = 0; i < f->count; i++) {
        double share = f->median / f->rays[i].distance;

        images[i].x = share * sin(f->rays[i].bearing);
        images[i].y = share * cos(f->rays[i].bearing);
    }
}

static void measure_ellipse(struct figure *f, const struct scatter *s)
{
    f->major = f->median / sqrt(s->least);
    f->minor = f->median / sqrt(s->most);
    f->factor = sqrt((double)f->count / 2 / s->least);
    f->major_bearing = atan2(s->along.x, s->along.y);
    if (f->major_bearing < 0)
        f->major_bearing += PI;
}

/* The points' distances from the circle through the station, which is at 0, 0,
 * about `centre`: the sum of their squares. */
static double squares_of(const struct pair *p, size_t count,
                         const struct pair *centre)
{
    double radius = hypot(centre->x, centre->y), sum = 0;

    for (size_t i = 0; i < count; i++) {
        double off = hypot(p[i].x - centre->x, p[i].y - centre->y) - radius;

        sum += off * off;
    }
    return sum;
}

/* The step from `centre` that makes them smaller, with this damping. */
static struct pair step_from(const struct pair *p, size_t count,
                             const struct pair *centre, double damping)
{
    double radius = hypot(centre->x, centre->y);
    double xx = 0, yy = 0, xy = 0, x = 0, y = 0, bottom;
    struct pair step;

    for (size_t i = 0; i < count; i++) {
        double away = hypot(p[i].x - centre->x, p[i].y - centre->y);
        double off = away - radius, dx, dy;

        if (away == 0 || radius == 0)
            continue;
        dx = (centre->x - p[i].x) / away - centre->x / radius;
        dy = (centre->y - p[i].y) / away - centre->y / radius;
        xx += dx * dx;
        yy += dy * dy;
        xy += dx * dy;
        x -= dx * off;
        y -= dy * off;
    }
    xx *= 1 + damping;
    yy *= 1 + damping;
    bottom = xx * yy - xy * xy;
    step.x = bottom > 0 ? (x * yy - y * xy) / bottom : 0;
    step.y = bottom > 0 ? (y * xx - x * xy) / bottom : 0;
    return step;
}

/* Moves the centre as long as the sum becomes smaller, and answers that. */
static double draw_near(const struct pair *p, size_t count,
                        struct pair *centre)
{
    double damping = 1e-3, sum = squares_of(p, count, centre);

    for (int i = 0; i < STEPS; i++) {
        struct pair step = step_from(p, count, centre, damping);
        struct pair next = { centre->x + step.x, centre->y + step.y };
        double now = squares_of(p, count, &next);

        if (now < sum) {
            sum = now;
            *centre = next;
            damping /= 4;
        } else {
            damping = damping * 8 + 1e-9;
        }
    }
    return sum;
}

/* The centre of the circle through 0, 0 and two points: 1, or 0 if in line. */
static int centre_of(const struct pair *a, const struct pair *b,
                     struct pair *centre)
{
    struct at three[3] = { { 0, 0 }, { 0, 0 }, { 0, 0 } };
    struct circle c;

    three[1].east = a->x;
    three[1].north = a->y;
    three[2].east = b->x;
    three[2].north = b->y;
    if (!circle_through(three, &c))
        return 0;
    centre->x = c.centre.east;
    centre->y = c.centre.north;
    return 1;
}

/* The nearest circle, from several beginnings: the given one, and those through
 * the station and two of the points, a third of the list apart. */
static void draw_nearest(const struct pair *p, size_t count,
                         struct pair *centre)
{
    double least = draw_near(p, count, centre);

    for (size_t i = 0; i < count; i += 1 + count / 24) {
        struct pair other;
        double sum;

        if (!centre_of(&p[i], &p[(i + 1 + count / 3) % count], &other))
            continue;
        sum = draw_near(p, count, &other);
        if (sum < least) {
            least = sum;
            *centre = other;
        }
    }
}

static void measure_circle(struct figure *f, const struct at *station,
                           const struct at *points)
{
    for (size_t i = 0; i < f->count; i++) {
        double off = distance(&points[i], &f->circle.centre) -
                     f->circle.radius;

        f->off_share = fmax(f->off_share,
                            fabs(off) / distance(&points[i], station));
        if (fabs(off) < fabs(f->off_circle))
            continue;
        f->off_circle = off;
        f->off_point = i;
    }
}

/* The circle through the station that is closest to the points, from the one
 * whose image is the line of the images: 0, or -1 for no memory. */
static int find_near_circle(struct figure *f, const struct scatter *s,
                            const struct at *station, const struct at *points)
{
    struct pair normal = { -s->along.y, s->along.x };
    double away = s->mean.x * normal.x + s->mean.y * normal.y;
    double reach = f->median / (2 * away);
    struct pair centre = { reach * normal.x, reach * normal.y };
    struct pair *all;

    if (fabs(away) < 1e-9)
        return 0;
    all = calloc(f->count, sizeof *all);
    if (all == NULL)
        return -1;
    for (size_t i = 0; i < f->count; i++) {
        all[i].x = points[i].east - station->east;
        all[i].y = points[i].north - station->north;
    }
    draw_nearest(all, f->count, &centre);
    free(all);
    f->has_circle = 1;
    f->circle.radius = hypot(centre.x, centre.y);
    f->circle.centre.east = station->east + centre.x;
    f->circle.centre.north = station->north + centre.y;
    measure_circle(f, station, points);
    return 0;
}

static int find_circle(struct figure *f, const struct scatter *s,
                       const struct at *station, const struct at *points)
{
    if (f->count > 3)
        return find_near_circle(f, s, station, points);
    f->has_circle = circle_through(points, &f->circle);
    if (f->has_circle)
        f->off_circle = distance(station, &f->circle.centre) -
                        f->circle.radius;
    return 0;
}

static int measure_rows(struct figure *f, const struct at *station,
                        const struct at *points)
{
    struct pair *all = calloc(f->count + 1, sizeof *all);

    if (all == NULL)
        return -1;
    for (size_t i = 0; i < f->count; i++) {
        all[i].x = points[i].east - station->east;
        all[i].y = points[i].north - station->north;
    }
    f->row = row_of(all, f->count);
    f->all_row = row_of(all, f->count + 1); /* the station is at 0, 0 */
    free(all);
    return 0;
}

static int measure_strength(struct figure *f, const struct at *station,
                            const struct at *points)
{
    struct pair *images = calloc(f->count, sizeof *images);
    struct scatter s;
    int done;

    if (images == NULL)
        return -1;
    invert(images, f);
    s = scatter_of(images, f->count);
    measure_ellipse(f, &s);
    done = find_circle(f, &s, station, points);
    free(images);
    return done;
}

/* ---- verdict ---- */

static int is_near_circle(const struct figure *f)
{
    double unit = f->circle.radius < f->median ? f->circle.radius : f->median;

    return f->has_circle && fabs(f->off_circle) < NEAR_CIRCLE * unit &&
           f->off_share < NEAR_CIRCLE;
}

/* A circle that is far larger than the figure is a line to it. */
static int is_large_circle(const struct figure *f)
{
    return f->circle.radius > LARGE_CIRCLE * f->all_row.length;
}

/* Points on an arc may lie nearly in line as well: both are told. */
static void give_reasons(struct figure *f)
{
    int line = f->all_row.off < NEAR_LINE * f->all_row.length;

    if (f->sector < NARROW)
        f->reasons |= REASON_NARROW;
    if (line)
        f->reasons |= REASON_LINE;
    if (is_near_circle(f) && !(line && is_large_circle(f)))
        f->reasons |= REASON_CIRCLE;
    if (f->reasons == 0 || f->factor <= FACTOR_GOOD)
        f->reasons |= REASON_UNEVEN;
}

static enum verdict verdict_of(const struct figure *f)
{
    if (f->factor > FACTOR_WEAK)
        return NOT_DETERMINED;
    return f->factor <= FACTOR_GOOD && f->major <= AXES_GOOD * f->minor ? GOOD
                                                                         : WEAK;
}

int figure_judge(struct figure *f, struct ray *rays, const struct at *station,
                 const struct at *points, size_t count)
{
    const struct figure none = { 0 };

    *f = none;
    f->rays = rays;
    f->count = count;
    f->factor = f->major = f->minor = INFINITY;
    f->verdict = NOT_DETERMINED;
    aim(f, station, points);
    measure_gaps(f);
    if (measure_median(f) != 0 || measure_rows(f, station, points) != 0)
        return -1;
    find_places(f, points);
    if (f->places < 3)
        f->reasons |= REASON_FEW;
    if (f->reasons != 0)
        return 0;
    if (measure_strength(f, station, points) != 0)
        return -1;
    f->verdict = verdict_of(f);
    if (f->verdict != GOOD)
        give_reasons(f);
    return 0;
}
