/* figure: how well directions from a station to points would determine the
 * station, in words and numbers or as a picture. */
#include "figure.h"

#include "pattern.h"
#include "picture.h"
#include "utf8.h"

#include <math.h>
#include <stdlib.h>
#include <string.h>

static const double sigma_usual = 1;  /* mgon */

/* ---- what is asked ---- */

static int station_read(struct at *station, const char *word)
{
    size_t comma = strcspn(word, ",");
    struct piece east = { (const uint8_t *)word, comma }, north;

    if (word[comma] == '\0')
        return -1;
    north.bytes = east.bytes + comma + 1;
    north.length = strlen(word + comma + 1);
    return coordinate_read(east, &station->east) |
           coordinate_read(north, &station->north);
}

static int sigma_read(double *sigma, const char *word)
{
    struct piece p = { (const uint8_t *)word, 0 };

    *sigma = sigma_usual;
    if (word == NULL)
        return 0;
    p.length = strlen(word);
    if (coordinate_read(p, sigma) != 0)
        return -1;
    return *sigma >= 0.001 && *sigma <= 1000 ? 0 : -1;
}

static int read_question(struct resection *r)
{
    if (r->o->station == NULL || station_read(&r->station, r->o->station)) {
        complain("figure: --station needs easting,northing in metres");
        return TROUBLE;
    }
    if (sigma_read(&r->sigma, r->o->sigma) != 0) {
        complain("figure: --sigma needs a number of mgon from 0.001 to 1000");
        return TROUBLE;
    }
    return DONE;
}

static uint8_t *taken(const struct resection *r, const struct spot *s)
{
    return &r->taken[s - r->site.spots];
}

/* Aims at a point: DONE, or TROUBLE after a complaint. */
static int aim_at(struct resection *r, const struct spot *s)
{
    struct buffer shown = { NULL, 0, 0 };

    if (r->count == DIRECTIONS_MOST) {
        complain("figure: %d points at most", DIRECTIONS_MOST);
        return TROUBLE;
    }
    if (spot_show(&shown, s) != 0) {
        buffer_free(&shown);
        return out_of_memory();
    }
    *taken(r, s) = 1;
    r->points[r->count] = s->at;
    r->names[r->count++] = (char *)shown.bytes;
    return DONE;
}

/* Why a point cannot be aimed at; NULL if it can. */
static const char *why_not(const struct resection *r, const struct spot *s)
{
    if (s == NULL)
        return "there is no point of that name";
    if (s->kind == SPOT_LEVEL)
        return "the point has a height alone";
    if (s->kind != SPOT_PLACED)
        return "the point's text is not coordinates";
    return *taken(r, s) ? "the point is named twice" : NULL;
}

/* Takes the point that a word names: DONE, or TROUBLE after a complaint. */
static int take_name(struct resection *r, const struct spot *s,
                     const struct buffer *shown)
{
    const char *why = why_not(r, s);

    if (why != NULL) {
        complain("%s: %s: %s", r->o->word[0], (const char *)shown->bytes, why);
        return TROUBLE;
    }
    return aim_at(r, s);
}

/* Takes the points whose names a pattern matches, less those that were taken
 * already and those without a place. */
static int take_matching(struct resection *r, const struct pattern *p,
                         const char *typed)
{
    size_t matched = 0, placeless = 0;
    int status = DONE;

    for (size_t i = 0; i < r->site.count && status == DONE; i++) {
        const struct spot *s = &r->site.spots[i];

        if (!pattern_matches(p, s->name, s->name_length))
            continue;
        matched++;
        placeless += s->kind != SPOT_PLACED;
        if (s->kind == SPOT_PLACED && !*taken(r, s))
            status = aim_at(r, s);
    }
    if (placeless > 0)
        complain("%s: %s: %lu without a place passed over", r->o->word[0],
                 typed, (unsigned long)placeless);
    if (status != DONE || matched > placeless)
        return status;
    complain("%s: no name matches %s", r->o->word[0], typed);
    return TROUBLE;
}

/* A word is a point's name, or else a pattern. */
static int take_word(struct resection *r, const char *typed)
{
    struct buffer name = { NULL, 0, 0 }, shown = { NULL, 0, 0 };
    struct pattern pattern;
    const struct spot *s;
    int status;

    if (pattern_make(&pattern, typed) != 0 ||
        name_read(&name, (const uint8_t *)typed, strlen(typed)) != 0 ||
        name_show(&shown, name.bytes, name.length) != 0 ||
        buffer_put_byte(&shown, '\0') != 0) {
        status = out_of_memory();
    } else {
        while (name.length > 0 && name.bytes[name.length - 1] == 0)
            name.length--;
        s = site_find(&r->site, name.bytes, name.length);
        status = s == NULL && pattern.wild
            ? take_matching(r, &pattern, typed) : take_name(r, s, &shown);
    }
    buffer_free(&name);
    buffer_free(&shown);
    pattern_free(&pattern);
    return status;
}

static int take_sights(struct resection *r)
{
    size_t most = r->site.count + 1;
    int status = DONE;

    r->names = calloc(most, sizeof *r->names);
    r->points = calloc(most, sizeof *r->points);
    r->rays = calloc(most, sizeof *r->rays);
    r->taken = calloc(most, 1);
    if (r->names == NULL || r->points == NULL || r->rays == NULL ||
        r->taken == NULL)
        return out_of_memory();
    site_sort(&r->site);
    for (int i = 1; i < r->o->words && status == DONE; i++)
        status = take_word(r, r->o->word[i]);
    return status;
}

/* ---- is the station where it should be? ---- */

/* Says that the station lies far off, and would lie near if easting and
 * northing changed places. */
static void warn_of_swap(const struct resection *r)
{
    const struct at swapped = { r->station.north, r->station.east };
    double near = INFINITY, far = INFINITY;

    for (size_t i = 0; i < r->count; i++) {
        const struct at *p = &r->points[i];

        near = fmin(near, hypot(p->east - swapped.east,
                                p->north - swapped.north));
        far = fmin(far, hypot(p->east - r->station.east,
                              p->north - r->station.north));
    }
    if (far > 10000 && far > 100 * near)
        complain("warning: the nearest point is %.0f km from the station; if "
                 "easting and northing changed places it would be %.3f km: "
                 "--station is E,N", far / 1000, near / 1000);
}

/* ---- the numbers in words ---- */

static const char *const verdicts[] = { "good", "weak", "not determined" };

double axis_mm(const struct resection *r, double axis)
{
    return axis * r->sigma / 1000 * GON * 1000;
}

/* Beyond this factor the ellipse is not told. */
static const double factor_most = 9999;

int is_bounded(const struct resection *r)
{
    return r->figure.factor <= factor_most;
}

/* An angle in gon as it is printed, with that many decimals: from 0 up to less
 * than a whole turn, or half of one for an axis. */
static double shown_gon(double angle, int decimals, double turn)
{
    double unit = pow(10, decimals);
    double shown = round(angle / GON * unit) / unit;

    return shown >= turn ? shown - turn : shown;
}

double axis_gon(double bearing, int decimals)
{
    return shown_gon(bearing, decimals, 200);
}

/* A direction a hair west of north is printed as 0, and comes first. */
static size_t first_ray(const struct resection *r)
{
    const struct ray *rays = r->figure.rays;
    size_t first = r->count;

    while (first > 0 && rays[first - 1].bearing / GON >= 399.9995)
        first--;
    return first == r->count ? 0 : first;
}

static void print_rays(const struct resection *r)
{
    size_t first = first_ray(r);

    puts("  point             direction     distance   to the next");
    for (size_t i = 0; i < r->count; i++) {
        const struct ray *ray = &r->figure.rays[(first + i) % r->count];
        const char *name = r->names[ray->point];
        int wide = places_of(name);

        printf("  %s%*s %8.3f gon %10.3f m %9.3f gon\n", name,
               wide < 14 ? 14 - wide : 0, "",
               shown_gon(ray->bearing, 3, 400), ray->distance,
               ray->gap / GON);
    }
}

static void say_spread(char *to, size_t room, const struct resection *r)
{
    const struct figure *f = &r->figure;

    snprintf(to, room, "all directions lie within %.1f gon; the widest gap "
             "is %.1f gon", f->sector / GON, f->widest_gap / GON);
}

static void say_line(char *to, size_t room, const struct resection *r)
{
    const struct row *all = &r->figure.all_row, *row = &r->figure.row;

    snprintf(to, room, "the points stretch over %.3f m and lie within %.3f m "
             "of a line; with the station %.3f m and %.3f m", row->length,
             row->off, all->length, all->off);
}

static void say_circle(char *to, size_t room, const struct resection *r)
{
    const struct figure *f = &r->figure;
    double off = fabs(f->off_circle);

    if (!f->has_circle && r->count == 3)
        snprintf(to, room, "the three points are in line: there is no danger "
                 "circle");
    else if (!f->has_circle)
        snprintf(to, room, "no circle through the station comes near all "
                 "points but a straight line");
    else if (r->count == 3)
        snprintf(to, room, "the danger circle through the points has radius "
                 "%.3f m; the station is %.3f m %s it (%.1f %%)",
                 f->circle.radius, off, f->off_circle < 0 ? "inside"
                 : "outside", 100 * off / f->circle.radius);
    else
        snprintf(to, room, "the nearest danger circle has radius %.3f m; %s is "
                 "farthest from it, by %.3f m (%.1f %%)", f->circle.radius,
                 r->names[f->off_point], off,
                 100 * off / f->circle.radius);
}

static void say_ellipse(char *to, size_t room, const struct resection *r)
{
    const struct figure *f = &r->figure;

    if (!is_bounded(r))
        snprintf(to, room, "unbounded, long axis towards %.1f gon",
                 axis_gon(f->major_bearing, 1));
    else
        snprintf(to, room, "%.2f mm by %.2f mm, long axis towards %.1f gon, "
                 "for directions of %g mgon", axis_mm(r, f->major),
                 axis_mm(r, f->minor), axis_gon(f->major_bearing, 1),
                 r->sigma);
}

static void say_axes(char *to, size_t room, const struct resection *r)
{
    const struct figure *f = &r->figure;

    if (!is_bounded(r))
        snprintf(to, room, "the longer axis is endless");
    else
        snprintf(to, room, "the longer one is %.1f times the shorter; good to "
                 "%g", f->major / f->minor, AXES_GOOD);
}

static void say_factor(char *to, size_t room, const struct resection *r)
{
    const struct figure *f = &r->figure;

    if (!is_bounded(r))
        snprintf(to, room, "above %g: the ellipse's length against that of "
                 "points all round at %.3f m", factor_most, f->median);
    else
        snprintf(to, room, "%.3f: the ellipse's length against that of points "
                 "all round at %.3f m; good to %g, weak to %g", f->factor,
                 f->median, FACTOR_GOOD, FACTOR_WEAK);
}

/* What of the directions checks the others. Two points on one place check each
 * other alone. */
static void say_check(char *to, size_t room, const struct resection *r)
{
    const struct figure *f = &r->figure;
    size_t length;

    if (f->places < 3)
        snprintf(to, room, "none: there are fewer than three places");
    else if (f->places == 3 && f->count == 3)
        snprintf(to, room, "none: residuals of three directions are zero, "
                 "whatever is wrong");
    else if (f->places == 3)
        snprintf(to, room, "none for two of the three places");
    else
        snprintf(to, room, "%lu more than the three that are needed",
                 (unsigned long)(f->places - 3));
    length = strlen(to);
    if (f->places < f->count)
        snprintf(to + length, room - length, "; %s and %s are one place",
                 r->names[f->twin[0]], r->names[f->twin[1]]);
}

static const struct {
    unsigned reason;
    const char *words;
} reasons[] = {
    { REASON_FEW, "a resection needs three different points" },
    { REASON_ON_POINT, "the station stands on one of the points" },
    { REASON_CIRCLE, "near the danger circle" },
    { REASON_LINE, "station and points nearly in line" },
    { REASON_NARROW, "directions in a narrow sector" },
    { REASON_UNEVEN, "little holds the station towards" }
};

enum { REASONS = sizeof reasons / sizeof reasons[0] };

void say_verdict(char *to, size_t room, const struct resection *r)
{
    const char *between = ": ";
    size_t length;

    snprintf(to, room, "%s", verdicts[r->figure.verdict]);
    if (r->figure.verdict == GOOD) {
        length = strlen(to);
        snprintf(to + length, room - length, ": the directions determine the "
                 "station evenly enough");
    }
    for (size_t i = 0; i < REASONS; i++) {
        if ((r->figure.reasons & reasons[i].reason) == 0)
            continue;
        length = strlen(to);
        snprintf(to + length, room - length, "%s%s", between,
                 reasons[i].words);
        between = "; ";
    }
    length = strlen(to);
    if (r->figure.reasons & REASON_UNEVEN)
        snprintf(to + length, room - length, " %.0f gon",
                 axis_gon(r->figure.major_bearing, 0));
}

const char caution[] =
    "This judges geometry alone: not coordinates, pointings or blunders.";

const struct said lines[LINES] = {
    { "spread", say_spread, 0 },
    { "in line", say_line, 0 },
    { "check", say_check, 0 },
    { "circle", say_circle, 1 },
    { "ellipse", say_ellipse, 1 },
    { "axes", say_axes, 1 },
    { "factor", say_factor, 1 }
};

int is_measured(const struct resection *r)
{
    return (r->figure.reasons & (REASON_FEW | REASON_ON_POINT)) == 0;
}

static void print_words(const struct resection *r)
{
    char line[512];

    printf("directions from %.3f, %.3f to %lu %s:\n", r->station.east,
           r->station.north, (unsigned long)r->count,
           r->count == 1 ? "point" : "points");
    print_rays(r);
    for (size_t i = 0; i < LINES; i++) {
        if (lines[i].measured && !is_measured(r))
            continue;
        lines[i].say(line, sizeof line, r);
        printf("%-8s %s\n", lines[i].head, line);
    }
    say_verdict(line, sizeof line, r);
    printf("%s\n%s\n", line, caution);
}

/* ---- the command ---- */

static int answer(struct resection *r)
{
    if (figure_judge(&r->figure, r->rays, &r->station, r->points,
                     r->count) != 0)
        return out_of_memory();
    if (!(r->o->given & (OPTION_SVG | OPTION_FORM)))
        print_words(r);
    else if (draw_figure(r) != DONE)
        return TROUBLE;
    return finish_output(r->figure.verdict == GOOD ? DONE : REFUSED);
}

static void resection_free(struct resection *r)
{
    for (size_t i = 0; i < r->count; i++)
        free(r->names[i]);
    free(r->names);
    free(r->points);
    free(r->rays);
    free(r->taken);
    site_close(&r->site);
}

int run_figure(const struct options *o)
{
    struct resection r;
    int status;

    memset(&r, 0, sizeof r);
    r.o = o;
    status = picture_ask(o) == DONE ? read_question(&r) : TROUBLE;
    if (status == DONE &&
        site_open(&r.site, o->word[0], (unsigned)o->wait) != DONE)
        status = TROUBLE; /* 1 is for a figure that is not good */
    if (status == DONE)
        status = take_sights(&r);
    if (status == DONE)
        warn_of_swap(&r);
    if (status == DONE)
        status = answer(&r);
    resection_free(&r);
    return status;
}
