/* What became of a point from one file to another. */
#include "change.h"

#include "complain.h"

#include <math.h>
#include <string.h>

static const char *const words[CHANGES] = { "same", "within", "new", "gone",
                                            "moved", "text", "damaged" };

const char *change_word(enum change change)
{
    return words[change];
}

/* ---- reckoning ---- */

static int same_text(const struct spot *a, const struct spot *b)
{
    return a->kind == b->kind && same_piece(a->text, b->text);
}

static int same_note(struct reckoning *r, const struct spot *old,
                     const struct spot *now)
{
    struct piece a[POINT_FIELDS], b[POINT_FIELDS];

    return point_take(&r->records[0], old->text, a) &&
           point_take(&r->records[1], now->text, b) &&
           same_piece(a[NOTE], b[NOTE]);
}

/* What differs where both texts have coordinates. */
static unsigned details_of(struct reckoning *r, const struct spot *old,
                           const struct spot *now, const struct move *m)
{
    unsigned details = 0;

    if (m->all >= MOVE_LEAST)
        details |= DETAIL_MOVE;
    else if (m->all > 0)
        details |= DETAIL_HAIR;
    if (old->kind != now->kind)
        details |= now->kind == SPOT_PLACED ? DETAIL_PLACE_NEW
                                            : DETAIL_PLACE_GONE;
    if (old->has_height != now->has_height)
        details |= now->has_height ? DETAIL_HEIGHT_NEW : DETAIL_HEIGHT_GONE;
    if (!same_note(r, old, now))
        details |= DETAIL_NOTE;
    return details == 0 ? DETAIL_WRITTEN : details;
}

/* A move of just the tolerance is none; half of what is no move at all is kept
 * for the numbers' rounding. */
static int is_move(const struct reckoning *r, const struct move *m)
{
    return m->all >= MOVE_LEAST &&
           (r->tolerance == 0 || m->all > r->tolerance + MOVE_LEAST / 2);
}

static void reckon_both(struct reckoning *r, struct became *b,
                        const struct spot *old, const struct spot *now)
{
    if (!has_coordinates(old) || !has_coordinates(now)) {
        b->change = TEXT;
        b->details = DETAIL_OTHER;
        return;
    }
    b->move = spot_move(old, now);
    b->details = details_of(r, old, now, &b->move);
    if (is_move(r, &b->move))
        b->change = MOVED;
    else
        b->change = b->details == DETAIL_MOVE ? WITHIN : TEXT;
}

struct became reckon(struct reckoning *r, const struct spot *old,
                     const struct spot *now)
{
    struct became b = { SAME, 0, { 0, 0, 0, 0, 0 } };

    if ((old != NULL && old->kind == SPOT_DAMAGED) ||
        (now != NULL && now->kind == SPOT_DAMAGED))
        b.change = DAMAGED;
    else if (old == NULL)
        b.change = NEW;
    else if (now == NULL)
        b.change = GONE;
    else if (!same_text(old, now))
        reckon_both(r, &b, old, now);
    r->changes[b.change]++;
    return b;
}

int is_changed(const struct reckoning *r)
{
    return r->changes[NEW] + r->changes[GONE] + r->changes[MOVED] +
           r->changes[TEXT] + r->changes[DAMAGED] > 0;
}

void reckoning_free(struct reckoning *r)
{
    buffer_free(&r->records[0].bytes);
    buffer_free(&r->records[1].bytes);
}

int tolerance_read(double *tolerance, const char *word)
{
    struct piece p = { (const uint8_t *)word, 0 };

    *tolerance = 0;
    if (word == NULL)
        return 0;
    p.length = strlen(word);
    if (p.length > 2 && strcmp(word + p.length - 2, "mm") == 0)
        p.length -= 2;
    return coordinate_read(p, tolerance) == 0 && *tolerance >= 0 ? 0 : -1;
}

/* ---- lengths ---- */

/* How many decimals a length has, and whether it is told in metres. A tenth of
 * a millimetre is enough except for shorter ones. */
struct form {
    int decimals;
    double unit;       /* millimetres */
};

static struct form form_of(double mm)
{
    static const struct form fine = { 3, 1 }, usual = { 1, 1 };
    static const struct form far = { 3, 1000 };

    if (fabs(mm) >= 1000)
        return far;
    return fabs(mm) < 0.1 ? fine : usual;
}

/* Zero has no sign of its own: a minus before it is rounding. */
void decimals_show(char *to, size_t room, double value, int decimals, int sign)
{
    if (fabs(value) < 0.5 * pow(10, -decimals))
        value = 0;
    snprintf(to, room, sign ? "%+.*f" : "%.*f", decimals, value);
}

static void number_show(char *to, size_t room, double mm, struct form f,
                        int sign)
{
    decimals_show(to, room, mm / f.unit, f.decimals, sign);
}

void length_show(char *to, size_t room, double mm, int sign)
{
    struct form f = form_of(mm);

    number_show(to, room, mm, f, sign);
    snprintf(to + strlen(to), room - strlen(to), "%s",
             f.unit > 1 ? " m" : " mm");
}

/* ---- words ---- */

static int put(struct buffer *to, const char *word)
{
    return buffer_put(to, word, strlen(word));
}

static int put_piece(struct buffer *to, struct piece p)
{
    p = piece_trim(p);
    return buffer_put(to, p.bytes, p.length);
}

/* Coordinates with the digits of the text. */
static int put_fields(struct reckoning *r, struct buffer *to,
                      const struct spot *s, int first, int last)
{
    struct piece fields[POINT_FIELDS];
    const char *between = "";
    int done = 0;

    if (!point_take(&r->records[0], s->text, fields))
        return -1;
    for (int i = first; i <= last; i++)
        if (piece_trim(fields[i]).length > 0) {
            done |= put(to, between) | put_piece(to, fields[i]);
            between = " ";
        }
    return done;
}

/* Where a point is, or why that is not known. */
static int put_place(struct reckoning *r, struct buffer *to,
                     const struct spot *s)
{
    static const char *const why[SPOT_KINDS] = { "", "height ", "no text",
                                                 "an empty text",
                                                 "the text is not coordinates",
                                                 "damaged" };

    if (put(to, why[s->kind]) != 0)
        return -1;
    return has_coordinates(s) ? put_fields(r, to, s, EASTING, HEIGHT) : 0;
}

static int put_axis(struct buffer *to, const char *name, double mm,
                    struct form f)
{
    char number[48];

    number_show(number, sizeof number, mm, f, 1);
    return put(to, name) | put(to, number);
}

/* "13.9 mm: E +8.0, N -7.0, H -9.0, plan 10.6": all axes in the unit of the
 * whole length. */
static int put_move(struct buffer *to, const struct became *b,
                    const struct spot *old, const struct spot *now)
{
    const struct move *m = &b->move;
    struct form f = form_of(m->all);
    int placed = old->kind == SPOT_PLACED && now->kind == SPOT_PLACED;
    int levelled = old->has_height && now->has_height;
    char number[48];
    int done;

    length_show(number, sizeof number, m->all, 0);
    done = put(to, number) | put(to, ": ");
    if (placed)
        done |= put_axis(to, "E ", m->east, f) | put_axis(to, ", N ", m->north,
                                                         f);
    if (levelled)
        done |= put_axis(to, placed ? ", H " : "H ", m->height, f);
    if (placed && levelled && m->plane > 0 && m->height != 0) {
        number_show(number, sizeof number, m->plane, f, 0);
        done |= put(to, ", plan ") | put(to, number);
    }
    return done;
}

/* "the height 10 is gone" */
static int put_lost(struct reckoning *r, struct buffer *to, const char *what,
                    const struct spot *s, int first, int last,
                    const char *how)
{
    return put(to, what) | put_fields(r, to, s, first, last) | put(to, how);
}

static int put_between(struct buffer *to, size_t start)
{
    return to->length > start ? put(to, "; ") : 0;
}

static int put_details(struct reckoning *r, struct buffer *to,
                       const struct became *b, const struct spot *old,
                       const struct spot *now)
{
    size_t start = to->length;
    unsigned d = b->details;
    int done = 0;

    if (d & DETAIL_MOVE)
        done |= put_move(to, b, old, now);
    if (d & DETAIL_HAIR)
        done |= put(to, "moved by less than 0.001 mm");
    if (d & DETAIL_PLACE_NEW)
        done |= put_between(to, start) |
                put_lost(r, to, "the place ", now, EASTING, NORTHING,
                         " is new");
    if (d & DETAIL_PLACE_GONE)
        done |= put_between(to, start) |
                put_lost(r, to, "the place ", old, EASTING, NORTHING,
                         " is gone");
    if (d & DETAIL_HEIGHT_NEW)
        done |= put_between(to, start) |
                put_lost(r, to, "the height ", now, HEIGHT, HEIGHT, " is new");
    if (d & DETAIL_HEIGHT_GONE)
        done |= put_between(to, start) |
                put_lost(r, to, "the height ", old, HEIGHT, HEIGHT,
                         " is gone");
    if (d & DETAIL_NOTE)
        done |= put_between(to, start) | put(to, "another note");
    if (d & DETAIL_WRITTEN)
        done |= put(to, "the same, written differently");
    return done;
}

static int put_other(struct reckoning *r, struct buffer *to,
                     const struct spot *old, const struct spot *now)
{
    if (old->kind == now->kind)
        return put(to, "another text");
    return put_place(r, to, old) | put(to, " -> ") | put_place(r, to, now);
}

static int put_damaged(struct buffer *to, const struct spot *old,
                       const struct spot *now)
{
    int first = old != NULL && old->kind == SPOT_DAMAGED;
    int second = now != NULL && now->kind == SPOT_DAMAGED;

    return put(to, first && second ? "in both files"
                   : first ? "in the old file" : "in the new file");
}

int became_words(struct reckoning *r, struct buffer *to,
                 const struct became *b, const struct spot *old,
                 const struct spot *now)
{
    if (b->change == DAMAGED)
        return put_damaged(to, old, now);
    if (b->change == NEW || b->change == GONE)
        return put_place(r, to, b->change == NEW ? now : old);
    if (b->details & DETAIL_OTHER)
        return put_other(r, to, old, now);
    return put_details(r, to, b, old, now);
}

void counts_words(char *to, size_t room, const struct reckoning *r)
{
    size_t length;

    snprintf(to, room, "%lu same, %lu new, %lu gone, %lu moved, %lu with "
             "another text", (unsigned long)r->changes[SAME],
             (unsigned long)r->changes[NEW], (unsigned long)r->changes[GONE],
             (unsigned long)r->changes[MOVED],
             (unsigned long)r->changes[TEXT]);
    length = strlen(to);
    if (r->changes[DAMAGED] > 0)
        snprintf(to + length, room - length, ", %lu damaged",
                 (unsigned long)r->changes[DAMAGED]);
    length = strlen(to);
    if (r->tolerance > 0)
        snprintf(to + length, room - length, ", %lu moved by no more than "
                 "%.10g mm", (unsigned long)r->changes[WITHIN], r->tolerance);
}
