/* plot: a plan of a file's points to scale, on sheets of paper; and what became
 * of them since an older file. */
#include "plan.h"

#include "picture.h"
#include "selection.h"

#include <math.h>
#include <stdlib.h>
#include <string.h>

/* ---- points ---- */

static int is_placed(const struct spot *s)
{
    return s != NULL && s->kind == SPOT_PLACED;
}

/* " 10.6 mm" for a move over the ground, " h -3.0 mm" for one in height. */
static void show_move(char *to, size_t room, const struct move *m)
{
    char length[48];

    to[0] = '\0';
    if (m->plane >= MOVE_LEAST) {
        length_show(length, sizeof length, m->plane, 0);
        snprintf(to, room, " %s", length);
    }
    if (fabs(m->height) >= MOVE_LEAST) {
        length_show(length, sizeof length, m->height, 1);
        snprintf(to + strlen(to), room - strlen(to), " h %s", length);
    }
}

/* What else became of it, in few words. */
static void show_details(char *to, size_t room, const struct became *b,
                         const struct spot *now)
{
    static const struct {
        unsigned detail;
        const char *words;
    } all[] = {
        { DETAIL_PLACE_NEW, " place new" },
        { DETAIL_PLACE_GONE, " place gone" },
        { DETAIL_HEIGHT_NEW, " h new" }, { DETAIL_HEIGHT_GONE, " h gone" },
        { DETAIL_NOTE, " note" }
    };

    for (size_t i = 0; i < sizeof all / sizeof all[0]; i++)
        if (b->details & all[i].detail)
            snprintf(to + strlen(to), room - strlen(to), "%s", all[i].words);
    if (b->details & DETAIL_OTHER)
        snprintf(to + strlen(to), room - strlen(to), "%s",
                 has_coordinates(now) ? " coordinates new"
                                      : " no coordinates");
    if (b->change == DAMAGED)
        snprintf(to + strlen(to), room - strlen(to), " damaged");
}

/* The name, and what became of the point; no plan against another says less. */
static int put_text(struct buffer *text, const struct spot *s,
                    const struct became *b, const struct spot *now)
{
    char words[192] = "";

    if (b->details & DETAIL_MOVE && b->change != WITHIN)
        show_move(words, sizeof words, &b->move);
    show_details(words, sizeof words, b, now);
    return name_show(text, s->name, s->name_length) |
           buffer_put(text, words, strlen(words));
}

/* A changed point that has no place, neither now nor before. */
static int put_placeless(struct plan *p, const struct spot *s,
                         const struct became *b, const struct spot *now)
{
    struct buffer *to = &p->placeless;
    int done = 0;

    if (b->change == SAME || b->change == WITHIN)
        return 0;
    if (p->placeless_count++ > 0)
        done = buffer_put(to, ", ", 2);
    done |= put_text(to, s, b, now);
    if (b->change == NEW || b->change == GONE)
        done |= buffer_put(to, b->change == NEW ? " new" : " gone",
                           b->change == NEW ? 4 : 5);
    return done;
}

/* Adds a point that has a place now or had one before: 0, or -1. */
static int put_mark(struct plan *p, const struct spot *old,
                    const struct spot *now)
{
    struct mark *m = &p->marks[p->count];
    const struct spot *s = now != NULL ? now : old;
    struct became b = { SAME, 0, { 0, 0, 0, 0, 0 } };
    struct buffer text = { NULL, 0, 0 };

    if (p->o->against != NULL)
        b = reckon(&p->r, old, now);
    if (!is_placed(old) && !is_placed(now))
        return put_placeless(p, s, &b, now);
    m->change = b.change == WITHIN ? SAME : b.change;
    m->now = is_placed(now) ? now : NULL;
    m->old = is_placed(old) ? old : NULL;
    m->move = b.move;
    m->at = is_placed(now) ? now->at : old->at;
    m->before = is_placed(old) ? old->at : m->at;
    if (put_text(&text, s, &b, now) != 0 || buffer_put_byte(&text, 0) != 0) {
        buffer_free(&text);
        return -1;
    }
    m->text = (char *)text.bytes;
    p->count++;
    return 0;
}

static int put_marks(struct plan *p)
{
    struct merge merge = { &p->old, &p->now, 0, 0 };
    const struct spot *old, *now;

    p->marks = calloc(p->old.count + p->now.count + 1, sizeof *p->marks);
    if (p->marks == NULL)
        return out_of_memory();
    while (merge_next(&merge, &old, &now))
        if (put_mark(p, old, now) != 0)
            return out_of_memory();
    return DONE;
}

/* ---- outliers ---- */

static int by_number(const void *a, const void *b)
{
    double left = *(const double *)a, right = *(const double *)b;

    return left < right ? -1 : left > right;
}

static double median_of(double *numbers, size_t count)
{
    qsort(numbers, count, sizeof *numbers, by_number);
    return numbers[count / 2];
}

static double away_of(const struct plan *p, const struct at *at)
{
    return hypot(at->east - p->middle.east, at->north - p->middle.north);
}

/* Finds the middle of the points, and how far off half of them are; `room` has
 * room for as many numbers. */
static double spread_of(struct plan *p, double *room)
{
    for (size_t i = 0; i < p->count; i++)
        room[i] = p->marks[i].at.east;
    p->middle.east = median_of(room, p->count);
    for (size_t i = 0; i < p->count; i++)
        room[i] = p->marks[i].at.north;
    p->middle.north = median_of(room, p->count);
    for (size_t i = 0; i < p->count; i++)
        room[i] = away_of(p, &p->marks[i].at);
    return median_of(room, p->count);
}

/* A point this far off would make all others small. */
static int is_off(const struct plan *p, const struct at *at, double spread)
{
    double away = away_of(p, at);

    return away > 20 * spread && away > 1000;
}

/* The name, how far off it is, and what became of it. */
static int name_outlier(const struct plan *p, struct mark *m)
{
    struct buffer text = { NULL, 0, 0 };
    char words[48];

    snprintf(words, sizeof words, " %.3f km off", away_of(p, &m->at) / 1000);
    if (buffer_put(&text, m->text, strlen(m->text)) != 0 ||
        buffer_put(&text, words, strlen(words) + 1) != 0) {
        buffer_free(&text);
        return -1;
    }
    complain("%s: warning: %s is %.3f km from the middle of the points; it is "
             "named at the margin of the plan", p->o->word[0], m->text,
             away_of(p, &m->at) / 1000);
    free(m->text);
    m->text = (char *)text.bytes;
    return 0;
}

/* Points so far off that the others would be drawn small for them are named at
 * the margin, one in ten at most: 0, or -1 for no memory. */
static int find_outliers(struct plan *p)
{
    double *room = calloc(p->count, sizeof *room);
    size_t off = 0;
    double spread;

    if (room == NULL)
        return -1;
    spread = spread_of(p, room);
    free(room);
    for (size_t i = 0; i < p->count; i++)
        off += (size_t)is_off(p, &p->marks[i].at, spread);
    for (size_t i = 0; i < p->count; i++) {
        struct mark *m = &p->marks[i];

        m->outlier = off <= 1 + p->count / 10 && is_off(p, &m->at, spread);
        if (m->outlier && name_outlier(p, m) != 0)
            return -1;
        if (is_off(p, &m->before, spread) && off <= 1 + p->count / 10)
            m->before = m->at;
    }
    return 0;
}

/* ---- the command ---- */

static void say_unnamed(const struct plan *p)
{
    if (p->unnamed > 0)
        complain("%s: %ld %s no place on the plan, and a star in its list",
                 p->o->word[0], p->unnamed,
                 p->unnamed == 1 ? "name has" : "names have");
}

/* SVG and PNG hold one sheet. */
static void say_sheets(const struct plan *p, size_t only)
{
    size_t sheets = plan_pages(p);

    if (sheets > 1 && only == 0 && !p->o->quiet &&
        (p->o->form == NULL || strcmp(p->o->form, "--png") == 0))
        complain("%s: this is sheet 1 of %lu; --sheet N prints another, and "
                 "--pdf and --html hold all", p->o->word[0],
                 (unsigned long)sheets);
}

static int put_plan(const struct plan *p)
{
    struct picture picture = { NULL, 0, plan_points_put, p };
    char title[64];

    if (draw_plan(p) != 0)
        return out_of_memory();
    file_word(title, sizeof title, p->o->word[0]);
    picture.title = title;
    if (p->o->given & OPTION_SHEET)
        picture.only = (size_t)p->o->sheet;
    if (picture.only > plan_pages(p)) {
        complain("plot: --sheet %lu: there are %lu", (unsigned long)p->o->sheet,
                 (unsigned long)plan_pages(p));
        return TROUBLE;
    }
    say_sheets(p, picture.only);
    return picture_put(p->o, &picture);
}

/* Of both files: what is not on the plan has its words. */
static int say_left_out(const struct plan *p)
{
    int now = site_say_left_out(&p->now, p->o->word[0], NULL);
    int old = p->o->against == NULL
        ? DONE : site_say_left_out(&p->old, p->o->against, NULL);
    size_t level = p->now.kinds[SPOT_LEVEL];

    if (level > 0)
        complain("%s: %lu %s a height alone, and no place on the plan",
                 p->o->word[0], (unsigned long)level,
                 level == 1 ? "point has" : "points have");
    return now > old ? now : old;
}

static int make_plan(struct plan *p)
{
    struct site *const both[] = { &p->now, &p->old };
    int missing = sites_select(both, p->o->against != NULL ? 2 : 1, p->o, 1);
    int status, left_out;

    site_sort(&p->now);
    site_sort(&p->old);
    status = missing == TROUBLE ? TROUBLE : put_marks(p);
    if (status != DONE)
        return status;
    left_out = say_left_out(p);
    if (p->count == 0) {
        complain("%s: there is no point with coordinates", p->o->word[0]);
        return REFUSED;
    }
    status = find_outliers(p) == 0 ? lay_plan(p) : out_of_memory();
    if (status != DONE)
        return status;
    say_unnamed(p);
    if (put_plan(p) != DONE)
        return TROUBLE;
    return finish_output(left_out > missing ? left_out : missing);
}

static void plan_free(struct plan *p)
{
    for (size_t i = 0; i < p->count; i++)
        free(p->marks[i].text);
    free(p->marks);
    views_free(p);
    buffer_free(&p->placeless);
    reckoning_free(&p->r);
    site_close(&p->now);
    site_close(&p->old);
}

int run_plot(const struct options *o)
{
    struct plan p;
    int status;

    if (o->paper != NULL && paper_read(o->paper) < 0) {
        complain("plot: --paper is A4, A3, A2, A1 or A0");
        return TROUBLE;
    }
    if (picture_ask(o) != DONE)
        return TROUBLE;
    memset(&p, 0, sizeof p);
    p.o = o;
    if (tolerance_read(&p.r.tolerance, o->tolerance) != 0) {
        complain("plot: --tolerance needs millimetres, as 3 or 3mm");
        return TROUBLE;
    }
    status = site_open(&p.now, o->word[0], (unsigned)o->wait);
    if (status == DONE && o->against != NULL)
        status = site_open(&p.old, o->against, (unsigned)o->wait);
    if (status == DONE)
        status = make_plan(&p);
    plan_free(&p);
    return status;
}
