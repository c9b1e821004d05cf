/* report: which prisms moved from one epoch to another, and by how much. What a
 * movement is, change.c reckons, as for diff and the plan. */
#include "report.h"

#include "picture.h"

#include <math.h>
#include <stdlib.h>
#include <string.h>

/* ---- one prism ---- */

/* The coordinates that both readings have. */
static void take_displacement(struct row *row)
{
    const struct move *m = &row->became.move;
    const struct spot *a = row->from, *b = row->to;

    row->d.has_plan = a->kind == SPOT_PLACED && b->kind == SPOT_PLACED;
    row->d.has_height = has_coordinates(a) && has_coordinates(b) &&
                        a->has_height && b->has_height;
    row->d.east = m->east;
    row->d.north = m->north;
    row->d.height = m->height;
}

static enum standing standing_of(const struct report *r,
                                 const struct row *row)
{
    if (row->became.change == DAMAGED)
        return BROKEN;
    if (row->from == NULL || row->to == NULL)
        return MISSING;
    if (!row->d.has_plan && !row->d.has_height)
        return UNREAD;
    return r->o->tolerance != NULL && row->became.change == MOVED ? BEYOND
                                                                  : INSIDE;
}

static void reckon_row(struct report *r, struct row *row,
                       const struct prism *p)
{
    row->prism = p;
    row->from = reading_at(&r->series, p, r->from);
    row->to = reading_at(&r->series, p, r->to);
    if (row->from != NULL || row->to != NULL)
        row->became = reckon(&r->r, row->from, row->to);
    if (row->from != NULL && row->to != NULL)
        take_displacement(row);
    row->test = congruence_test(&r->precision, &row->d);
    row->standing = standing_of(r, row);
    r->standings[row->standing]++;
}

/* What is said first: the worst kind, the longest movement in thousandths of a
 * millimetre, the name. */
static int by_harm(const void *a, const void *b)
{
    const struct row *x = a, *y = b;
    double x_long = nearbyint(x->became.move.all / MOVE_LEAST);
    double y_long = nearbyint(y->became.move.all / MOVE_LEAST);

    if (x->standing != y->standing)
        return x->standing < y->standing ? -1 : 1;
    if (x_long != y_long)
        return x_long > y_long ? -1 : 1;
    return spot_order(x->prism->readings, y->prism->readings);
}

static int reckon_all(struct report *r)
{
    r->count = r->series.count;
    r->rows = calloc(r->count + 1, sizeof *r->rows);
    if (r->rows == NULL)
        return out_of_memory();
    for (size_t i = 0; i < r->count; i++)
        reckon_row(r, &r->rows[i], &r->series.prisms[i]);
    if (r->count > 1)
        qsort(r->rows, r->count, sizeof *r->rows, by_harm);
    return DONE;
}

/* ---- words ---- */

const char *standing_word(const struct report *r, const struct row *row)
{
    static const char *const words[STANDINGS] = { "beyond", "damaged",
                                                  "unread", "missing",
                                                  "within" };

    if (row->standing == INSIDE && r->o->tolerance == NULL)
        return row->became.change == MOVED ? "moved" : "still";
    return words[row->standing];
}

static void reason_missing(char *to, size_t room, const struct report *r,
                           const struct row *row)
{
    const struct spot *before = reading_before(&r->series, row->prism, r->to);

    if (row->from == NULL)
        snprintf(to, room, "no reading at %lu", (unsigned long)r->from);
    else
        to[0] = '\0';
    if (row->to != NULL)
        return;
    snprintf(to + strlen(to), room - strlen(to), row->from == NULL
             ? " nor at %lu" : "no reading at %lu", (unsigned long)r->to);
    if (before != NULL)
        snprintf(to + strlen(to), room - strlen(to), ", the last before it at "
                 "%lu", (unsigned long)reading_epoch(&r->series, before));
}

void row_reason(char *to, size_t room, const struct report *r,
                const struct row *row)
{
    to[0] = '\0';
    if (row->standing == MISSING)
        reason_missing(to, room, r, row);
    else if (row->standing == BROKEN)
        snprintf(to, room, "a reading is damaged; see bhtf check");
    else if (row->standing == UNREAD)
        snprintf(to, room, "no coordinates that both readings have");
}

void report_counts(char *to, size_t room, const struct report *r)
{
    const size_t *n = r->standings;

    snprintf(to, room, "%lu prism%s: ", (unsigned long)r->count,
             r->count == 1 ? "" : "s");
    if (r->o->tolerance != NULL)
        snprintf(to + strlen(to), room - strlen(to), "%lu beyond %.10g mm, %lu "
                 "within", (unsigned long)n[BEYOND], r->r.tolerance,
                 (unsigned long)n[INSIDE]);
    else
        snprintf(to + strlen(to), room - strlen(to), "%lu moved, %lu still",
                 (unsigned long)r->r.changes[MOVED],
                 (unsigned long)(n[INSIDE] - r->r.changes[MOVED]));
    snprintf(to + strlen(to), room - strlen(to), ", %lu missing",
             (unsigned long)n[MISSING]);
    if (n[UNREAD] > 0)
        snprintf(to + strlen(to), room - strlen(to), ", %lu without "
                 "coordinates", (unsigned long)n[UNREAD]);
    if (n[BROKEN] > 0)
        snprintf(to + strlen(to), room - strlen(to), ", %lu damaged",
                 (unsigned long)n[BROKEN]);
}

void report_test(char *to, size_t room, const struct report *r)
{
    const struct precision *p = &r->precision;

    to[0] = '\0';
    if (p->plan == 0)
        return;
    snprintf(to, room, "congruence test of each point, T = d' S^-1 d, sigma of "
             "a coordinate %.10g mm in plan and %.10g mm in height, "
             "significant at %.10g %% above %.3f (3 coordinates), %.3f (2), "
             "%.3f (1)", p->plan, p->height, p->level * 100,
             chi_square_quantile(3, p->level),
             chi_square_quantile(2, p->level),
             chi_square_quantile(1, p->level));
}

void epoch_show(char *to, size_t room, const char *typed, uint32_t epoch)
{
    snprintf(to, room, "%lu", (unsigned long)epoch);
    if (strcmp(typed, to) != 0)
        snprintf(to, room, "%.40s (%lu)", typed, (unsigned long)epoch);
}

/* ---- the command ---- */

static int read_options(struct report *r)
{
    const struct options *o = r->o;

    if (o->from == NULL || o->to == NULL) {
        complain("report: --from and --to say between which epochs; bhtf "
                 "epochs lists them");
        return TROUBLE;
    }
    if (epoch_wanted(o, o->from, &r->from) != DONE ||
        epoch_wanted(o, o->to, &r->to) != DONE)
        return TROUBLE;
    if (r->from >= r->to) {
        complain("report: --from %s is not before --to %s", o->from, o->to);
        return TROUBLE;
    }
    if (tolerance_read(&r->r.tolerance, o->tolerance) != 0) {
        complain("report: --tolerance needs millimetres, as 3 or 3mm");
        return TROUBLE;
    }
    r->precision.level = 0.05;
    if (o->sigma != NULL && precision_read(&r->precision, o->sigma) != 0) {
        complain("report: --sigma needs millimetres above 0, as 0.8 or 0.8mm, "
                 "or 0.8,1.2 for plan and height");
        return TROUBLE;
    }
    if (o->alpha != NULL && level_read(&r->precision, o->alpha) != 0) {
        complain("report: --alpha needs per cent, above 0 and at most 50, as 5 "
                 "or 5%%");
        return TROUBLE;
    }
    if (o->alpha != NULL && o->sigma == NULL) {
        complain("report: --alpha goes with --sigma");
        return TROUBLE;
    }
    return DONE;
}

static int forms_given(const struct options *o)
{
    return ((o->given & OPTION_CSV) != 0) + ((o->given & OPTION_JSON) != 0) +
           ((o->given & OPTION_SVG) != 0) + ((o->given & OPTION_FORM) != 0);
}

/* An epoch that no prism has is a slip of the pen: all would be missing. */
static int ask_epoch(const struct report *r, uint32_t epoch)
{
    const struct series *s = &r->series;

    for (size_t i = 0; i < s->epoch_count; i++)
        if (s->epochs[i] == epoch)
            return DONE;
    if (s->epoch_count == 0)
        complain("%s: there is no point", r->o->word[0]);
    else
        complain("%s: no reading has epoch %lu; there are %lu epochs, from %lu "
                 "to %lu", r->o->word[0], (unsigned long)epoch,
                 (unsigned long)s->epoch_count, (unsigned long)s->epochs[0],
                 (unsigned long)s->epochs[s->epoch_count - 1]);
    return TROUBLE;
}

/* Status 1 is for a tolerance that is exceeded, and for nothing else. */
static int make_report(struct report *r)
{
    int status = reckon_all(r);

    if (status != DONE)
        return TROUBLE;
    status = r->o->given & (OPTION_SVG | OPTION_FORM) ? report_draw(r)
                                                      : report_print(r);
    if (status != DONE)
        return TROUBLE;
    if (r->standings[BROKEN] > 0) {
        complain("%s: %lu prism%s cannot be judged: a reading is damaged",
                 r->o->word[0], (unsigned long)r->standings[BROKEN],
                 r->standings[BROKEN] == 1 ? "" : "s");
        return finish_output(TROUBLE);
    }
    return finish_output(r->standings[BEYOND] > 0 ? REFUSED : DONE);
}

int run_report(const struct options *o)
{
    struct report r;
    int status;

    memset(&r, 0, sizeof r);
    r.o = o;
    if (forms_given(o) > 1) {
        complain("report: one of --csv, --json and --svg, --pdf, --png or "
                 "--html");
        return TROUBLE;
    }
    if (read_options(&r) != DONE || picture_ask(o) != DONE)
        return TROUBLE;
    status = series_open(&r.series, o, 0) == DONE &&
             ask_epoch(&r, r.from) == DONE && ask_epoch(&r, r.to) == DONE
        ? make_report(&r) : TROUBLE;
    free(r.rows);
    reckoning_free(&r.r);
    series_close(&r.series);
    return status;
}
