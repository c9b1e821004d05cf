/* Points that are about to be stored, held against the others. */
#include "judge.h"

#include "commands.h"
#include "epoch.h"
#include "point.h"

#include <math.h>
#include <stdlib.h>
#include <string.h>

/* Two points that are nearer are two names for one, in metres. */
#define NEAR 0.01

/* A point that moved by less, in metres, is where it was. */
#define STAYS 1.0

/* ---- the points ---- */

static void take_place(struct mover *m, struct record *r,
                       const struct piece *old)
{
    struct piece fields[POINT_FIELDS];

    if (old == NULL || !point_fields(r, *old, fields))
        return;
    m->was_placed = fields[EASTING].length > 0;
    m->was_levelled = fields[HEIGHT].length > 0;
    m->easting = point_number(fields[EASTING]);
    m->northing = point_number(fields[NORTHING]);
    m->height = point_number(fields[HEIGHT]);
}

static int make_room(struct movers *m)
{
    size_t room = m->room == 0 ? 16 : 2 * m->room;
    struct mover *all;

    if (m->count < m->room)
        return 0;
    all = realloc(m->all, room * sizeof *all);
    if (all == NULL)
        return -1;
    m->all = all;
    m->room = room;
    return 0;
}

int movers_put(struct movers *m, const struct buffer *key, unsigned long line,
               const struct piece *old)
{
    struct record record;
    struct mover *new;

    if (make_room(m) != 0)
        return -1;
    new = &m->all[m->count];
    memset(new, 0, sizeof *new);
    memset(&record, 0, sizeof record);
    new->key = m->keys.length;
    new->line = line;
    take_place(new, &record, old);
    buffer_free(&record.bytes);
    m->count++;
    return buffer_put(&m->keys, key->bytes, key->length);
}

void movers_free(struct movers *m)
{
    buffer_free(&m->keys);
    free(m->all);
    m->all = NULL;
    m->count = m->room = 0;
}

/* ---- places ---- */

struct spot_at {
    double easting;
    double northing;
    double height;
    int levelled;
    const uint8_t *key;
    const struct mover *mover; /* NULL: it is as it was */
};

struct scene {
    const struct judgement *j;
    struct movers *m;
    struct record record;
    struct spot_at *spots;
    size_t count;
    size_t room;
    size_t moved;        /* of these, with a place */
    size_t swapped;
    unsigned long swapped_line;
    size_t told;
};

static int take_spot(struct spot_at *s, struct record *r, struct piece text)
{
    struct piece fields[POINT_FIELDS];

    if (text.length == 0 || !point_fields(r, text, fields) ||
        fields[EASTING].length == 0)
        return 0;
    s->easting = point_number(fields[EASTING]);
    s->northing = point_number(fields[NORTHING]);
    s->levelled = fields[HEIGHT].length > 0;
    s->height = s->levelled ? point_number(fields[HEIGHT]) : 0;
    return 1;
}

/* Sorting has no other way to know them. */
static const struct movers *sorted;
static size_t sorted_key;

static int by_key(const void *a, const void *b)
{
    const struct mover *x = a, *y = b;

    return memcmp(sorted->keys.bytes + x->key, sorted->keys.bytes + y->key,
                  sorted_key);
}

static int key_order(const void *key, const void *b)
{
    const struct mover *y = b;

    return memcmp(key, sorted->keys.bytes + y->key, sorted_key);
}

static const struct mover *find_mover(const uint8_t *key)
{
    return sorted->count == 0
        ? NULL : bsearch(key, sorted->all, sorted->count, sizeof *sorted->all,
                         key_order);
}

static int gather(struct scene *s)
{
    const struct judgement *j = s->j;
    uint32_t slot, place, offset, size, count = 0;

    bhtf_count(j->image, j->length, &count);
    s->spots = calloc((size_t)count + 1, sizeof *s->spots);
    if (s->spots == NULL)
        return out_of_memory();
    bhtf_walk(j->image, j->length, 0, &slot, &place);
    while (place != 0 && s->count < count) {
        struct spot_at *at = &s->spots[s->count];
        struct piece text;

        bhtf_lookup(j->image, j->length, j->image + place, j->key_size,
                    &offset, &size);
        text.bytes = j->image + offset;
        text.length = size;
        at->key = j->image + place;
        if (take_spot(at, &s->record, text)) {
            at->mover = find_mover(at->key);
            s->moved += at->mover != NULL;
            s->count++;
        }
        bhtf_walk(j->image, j->length, slot + 1, &slot, &place);
    }
    return DONE;
}

/* ---- words ---- */

/* Is another one named, or only counted? */
static int is_named(struct scene *s)
{
    return ++s->told <= REFUSALS_SHOWN;
}

static void say_rest(struct scene *s)
{
    if (s->told > REFUSALS_SHOWN)
        complain("%s: and %lu more", s->j->file,
                 (unsigned long)(s->told - REFUSALS_SHOWN));
    s->told = 0;
}

static void put_line(const struct scene *s, const struct mover *m, char *to,
                     size_t room)
{
    to[0] = '\0';
    if (m != NULL && m->line != 0 && s->j->input != NULL)
        snprintf(to, room, "line %lu: ", m->line);
}

static const char *show(const struct scene *s, struct buffer *to,
                        const uint8_t *key)
{
    uint32_t size = s->j->key_size;
    int done;

    to->length = 0;
    done = s->j->dated ? dated_show(to, key, size) : name_show(to, key, size);
    if (done != 0 || buffer_put_byte(to, '\0') != 0)
        return "?";
    return (const char *)to->bytes;
}

static const char *source(const struct scene *s)
{
    return s->j->input != NULL ? s->j->input : s->j->file;
}

/* ---- far ---- */

static int stays(const struct spot_at *at)
{
    const struct mover *m = at->mover;

    return m->was_placed && hypot(at->easting - m->easting,
                                  at->northing - m->northing) <= STAYS;
}

static int stays_high(const struct spot_at *at)
{
    const struct mover *m = at->mover;

    return m->was_levelled && fabs(at->height - m->height) <= STAYS;
}

static void name_far(struct scene *s, const struct spot_at *at,
                     const char *what, double by)
{
    struct buffer shown = { NULL, 0, 0 };
    char line[40];

    if (is_named(s)) {
        put_line(s, at->mover, line, sizeof line);
        complain("%s: %s%s: its %s lies %.3f %s away from the others",
                 source(s), line, show(s, &shown, at->key), what,
                 by >= 1000 ? by / 1000 : by, by >= 1000 ? "km" : "m");
    }
    buffer_free(&shown);
}

static size_t look_for_far(struct scene *s, const struct neighbours *n)
{
    size_t found = 0;

    for (size_t i = 0; i < s->count; i++) {
        const struct spot_at *at = &s->spots[i];
        double plan, high;

        if (at->mover == NULL)
            continue;
        plan = stays(at) ? 0 : far_in_plan(n, at->easting, at->northing);
        high = !at->levelled || stays_high(at) ? 0
                                               : far_in_height(n, at->height);
        if (plan > 0)
            name_far(s, at, "place", plan);
        else if (high > 0)
            name_far(s, at, "height", high);
        found += plan > 0 || high > 0;
    }
    say_rest(s);
    return found;
}

/* ---- near ---- */

/* Which strip of a centimetre from west to east a place lies in. */
static double strip(const struct spot_at *at)
{
    return floor(at->easting / NEAR);
}

static int by_strip(const void *a, const void *b)
{
    const struct spot_at *x = a, *y = b;
    double i = strip(x), k = strip(y);

    if (i != k)
        return i < k ? -1 : 1;
    return (x->northing > y->northing) - (x->northing < y->northing);
}

static double apart(const struct spot_at *a, const struct spot_at *b)
{
    double plan = hypot(a->easting - b->easting, a->northing - b->northing);

    return a->levelled && b->levelled ? hypot(plan, a->height - b->height)
                                      : plan;
}

/* Was this pair one before? */
static int was_near(const struct spot_at *a, const struct spot_at *b)
{
    struct spot_at x = *a, y = *b;

    if ((a->mover != NULL && !a->mover->was_placed) ||
        (b->mover != NULL && !b->mover->was_placed))
        return 0;
    if (a->mover != NULL) {
        x.easting = a->mover->easting;
        x.northing = a->mover->northing;
        x.levelled = a->mover->was_levelled;
        x.height = a->mover->height;
    }
    if (b->mover != NULL) {
        y.easting = b->mover->easting;
        y.northing = b->mover->northing;
        y.levelled = b->mover->was_levelled;
        y.height = b->mover->height;
    }
    return apart(&x, &y) < NEAR;
}

static void name_near(struct scene *s, const struct spot_at *a,
                      const struct spot_at *b)
{
    const struct spot_at *new = a->mover != NULL ? a : b;
    const struct spot_at *other = new == a ? b : a;
    struct buffer first = { NULL, 0, 0 }, second = { NULL, 0, 0 };
    char line[40];

    if (is_named(s)) {
        put_line(s, new->mover, line, sizeof line);
        complain("%s: %s%s: lies %.1f mm from %s", source(s), line,
                 show(s, &first, new->key), apart(a, b) * 1000,
                 show(s, &second, other->key));
    }
    buffer_free(&first);
    buffer_free(&second);
}

/* More pairs are not counted. */
enum { PAIRS_MAX = 100000 };

/* The first point of a strip from a northing on. */
static size_t strip_from(const struct scene *s, double which, double northing)
{
    size_t low = 0, high = s->count;

    while (low < high) {
        size_t middle = low + (high - low) / 2;
        const struct spot_at *at = &s->spots[middle];

        if (strip(at) < which || (strip(at) == which &&
                                  at->northing < northing))
            low = middle + 1;
        else
            high = middle;
    }
    return low;
}

/* Names the pair, if it is one and was none. */
static size_t look_at_pair(struct scene *s, const struct spot_at *a,
                           const struct spot_at *b)
{
    if ((a->mover == NULL && b->mover == NULL) || apart(a, b) >= NEAR ||
        was_near(a, b))
        return 0;
    name_near(s, a, b);
    return 1;
}

/* The pairs that a point makes with those of a strip, from `k` on. */
static size_t look_in_strip(struct scene *s, const struct spot_at *a, size_t k,
                            double which)
{
    size_t found = 0;

    for (; k < s->count && strip(&s->spots[k]) == which &&
           s->spots[k].northing < a->northing + NEAR; k++)
        found += look_at_pair(s, a, &s->spots[k]);
    return found;
}

static size_t look_in_strips(struct scene *s)
{
    size_t found = 0;

    qsort(s->spots, s->count, sizeof *s->spots, by_strip);
    for (size_t i = 0; i < s->count && found < PAIRS_MAX; i++) {
        const struct spot_at *a = &s->spots[i];

        found += look_in_strip(s, a, i + 1, strip(a));
        found += look_in_strip(s, a, strip_from(s, strip(a) + 1,
                                                a->northing - NEAR),
                               strip(a) + 1);
    }
    return found;
}

/* One point beside all others; a pair of two that moved is met once. */
static size_t look_beside(struct scene *s, size_t i)
{
    size_t found = 0;

    for (size_t k = 0; k < s->count; k++)
        if (k > i || (k < i && s->spots[k].mover == NULL))
            found += look_at_pair(s, &s->spots[i], &s->spots[k]);
    return found;
}

/* A few points are not worth sorting all others for. */
enum { FEW = 16 };

static size_t look_for_near(struct scene *s)
{
    size_t found = 0;

    if (s->moved > FEW)
        found = look_in_strips(s);
    for (size_t i = 0; i < s->count && s->moved <= FEW; i++)
        if (s->spots[i].mover != NULL)
            found += look_beside(s, i);
    say_rest(s);
    return found;
}

/* ---- swapped ---- */

static int is_swapped(const struct neighbours *n, const struct spot_at *at)
{
    return at->mover != NULL && !stays(at) &&
           places_swapped(n, at->easting, at->northing);
}

static void look_for_swapped(struct scene *s)
{
    for (size_t i = 0; i < s->count; i++) {
        const struct spot_at *at = &s->spots[i];

        if (!is_swapped(s->j->before, at))
            continue;
        if (s->swapped++ == 0 || at->mover->line < s->swapped_line)
            s->swapped_line = at->mover->line;
    }
}

static int say_swapped(const struct scene *s)
{
    int most = 2 * s->swapped > s->moved;
    char first[64] = "";

    if (s->swapped == 0)
        return DONE;
    if (s->j->input != NULL)
        snprintf(first, sizeof first, "; line %lu is the first",
                 s->swapped_line);
    complain("%s: %s%lu of %lu point%s would lie near those of %s if easting "
             "and northing changed places%s", source(s),
             most && !(s->j->allowed & OPTION_ALLOW_SWAPPED) ? "" : "warning: ",
             (unsigned long)s->swapped, (unsigned long)s->moved,
             s->moved == 1 ? "" : "s", s->j->file, first);
    if (!most || s->j->allowed & OPTION_ALLOW_SWAPPED)
        return DONE;
    complain("%s: %s--allow-swapped stores them as they are", source(s),
             s->j->input != NULL ? "--columns says which column is which; "
                                 : "");
    return REFUSED;
}

/* ---- all of them ---- */

/* The file's own points tell what is usual; if there are too few, all do. */
static const struct neighbours *usual(const struct scene *s,
                                      struct neighbours *all)
{
    const struct judgement *j = s->j;

    memset(all, 0, sizeof *all);
    if (j->before->points >= NEIGHBOURS_ENOUGH ||
        neighbours_find(all, j->image, j->length, j->key_size) != 0)
        return j->before;
    return all;
}

static int refuse_found(const struct scene *s, size_t found, uint64_t allows,
                        const char *option)
{
    if (found == 0 || s->j->allowed & allows)
        return DONE;
    complain("%s: %s if %s meant so", source(s), option,
             found == 1 ? "this is" : "they are");
    return REFUSED;
}

static int look(struct scene *s)
{
    struct neighbours all;
    const struct neighbours *n = usual(s, &all);
    int status, far = DONE, near;

    look_for_swapped(s);
    status = say_swapped(s);
    if (status == DONE && !(s->j->allowed & OPTION_ALLOW_FAR))
        far = refuse_found(s, look_for_far(s, n), OPTION_ALLOW_FAR,
                           "--allow-far");
    if (s->j->allowed & OPTION_ALLOW_NEAR)
        near = DONE;
    else
        near = refuse_found(s, look_for_near(s), OPTION_ALLOW_NEAR,
                            "--allow-near");
    return status != DONE ? status : far != DONE ? far : near;
}

int judge(const struct judgement *j, struct movers *m)
{
    struct scene s;
    int status;

    if (m->count == 0)
        return DONE;
    memset(&s, 0, sizeof s);
    s.j = j;
    s.m = m;
    sorted = m;
    sorted_key = j->key_size;
    qsort(m->all, m->count, sizeof *m->all, by_key);
    status = gather(&s);
    if (status == DONE && s.moved > 0)
        status = look(&s);
    free(s.spots);
    buffer_free(&s.record.bytes);
    return status;
}
