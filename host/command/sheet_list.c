/* The list of coordinates that goes with a plan: one row a point, in a type of
 * fixed width. */
#include "font.h"
#include "plan.h"
#include "utf8.h"

#include <math.h>
#include <stdlib.h>
#include <string.h>

enum { CELLS = 6, CELL = 200, NAME_MOST = 40 };

/* A row's fields: the name, where on the plan it stands, easting, northing,
 * height, and with --against what became of it. */
struct cells_of_row {
    char cell[CELLS][CELL];
};

static const char *const heads[CELLS] = { "point", "", "easting", "northing",
                                          "height", "change, mm" };

static void put_piece(char *to, struct piece p)
{
    p = piece_trim(p);
    snprintf(to, CELL, "%.*s", (int)(p.length < CELL ? p.length : CELL - 1),
             (const char *)p.bytes);
}

/* Cuts a name that would make all rows too wide. */
static void cut_name(char *name)
{
    size_t at = strlen(name);

    if (places_of(name) <= NAME_MOST)
        return;
    while (at > 0 && places_of(name) > NAME_MOST - 2) {
        do
            at--;
        while (at > 0 && ((unsigned char)name[at] & 0xC0) == 0x80);
        name[at] = '\0';
    }
    strcat(name, "..");
}

static int put_name(char *to, const struct spot *s)
{
    struct buffer name = { NULL, 0, 0 };
    int done = spot_show(&name, s);

    if (done == 0) {
        snprintf(to, CELL - 3, "%s", (const char *)name.bytes);
        cut_name(to);
    }
    buffer_free(&name);
    return done;
}

/* Where the name is: the letter of a detail, ^ for the margin, * for nowhere,
 * and nothing for the plan itself. */
static void put_where(char *to, const struct mark *m)
{
    if (m == NULL)
        snprintf(to, CELL, "-");
    else if (!m->named)
        snprintf(to, CELL, "*");
    else if (m->outlier)
        snprintf(to, CELL, "^");
    else if (m->detail > 0)
        detail_letter(to, m->detail - 1);
}

static void put_change(char *to, const struct mark *m)
{
    static const char *const words[CHANGES] = { "", "", "new", "gone", "",
                                                "text", "damaged" };

    if (m == NULL)
        return;
    if (m->change != MOVED)
        snprintf(to, CELL, "%s", words[m->change]);
    else
        snprintf(to, CELL, "%+.1f %+.1f %+.1f", m->move.east, m->move.north,
                 m->move.height);
}

static int fill_row(struct cells_of_row *r, const struct plan *p,
                    struct record *record, const struct spot *s,
                    const struct mark *m)
{
    struct piece fields[POINT_FIELDS];

    memset(r, 0, sizeof *r);
    if (point_take(record, s->text, fields))
        for (int i = EASTING; i <= HEIGHT; i++)
            put_piece(r->cell[2 + i], fields[i]);
    put_where(r->cell[1], m);
    if (p->o->against != NULL)
        put_change(r->cell[5], m);
    return put_name(r->cell[0], s);
}

/* ---- as text ---- */

static char *join_row(const struct cells_of_row *r, const int wide[CELLS])
{
    char *row = malloc(CELLS * 2 * CELL);
    size_t at = 0;

    for (int i = 0; row != NULL && i < CELLS; i++) {
        int pad = wide[i] - places_of(r->cell[i]);

        if (wide[i] == 0)
            continue;
        if (i > 1 && i < 5)
            at += (size_t)sprintf(row + at, "%*s%s ", pad, "", r->cell[i]);
        else
            at += (size_t)sprintf(row + at, "%s%*s ", r->cell[i], pad, "");
    }
    while (at > 0 && row[at - 1] == ' ')
        at--;
    if (row != NULL)
        row[at] = '\0';
    return row;
}

static void widen(int wide[CELLS], const struct cells_of_row *r)
{
    for (int i = 0; i < CELLS; i++) {
        int places = places_of(r->cell[i]);

        wide[i] = places > wide[i] ? places : wide[i];
    }
}

/* The mark of a point of the list; marks are in the order of names, too. */
static const struct mark *mark_of(const struct plan *p, size_t *at,
                                  const struct spot *s)
{
    while (*at < p->count && p->marks[*at].now != s)
        ++*at;
    return *at < p->count ? &p->marks[*at] : NULL;
}

static int fill_rows(struct plan *p, struct cells_of_row *all, int wide[CELLS])
{
    struct record record;
    size_t at = 0;
    int done = 0;

    memset(&record, 0, sizeof record);
    for (size_t i = 0; i < p->now.count && done == 0; i++) {
        const struct spot *s = &p->now.spots[i];
        size_t from = at;
        const struct mark *m = mark_of(p, &at, s);

        if (m == NULL)
            at = from;
        if (!has_coordinates(s))
            continue;
        done = fill_row(&all[p->row_count], p, &record, s, m);
        widen(wide, &all[p->row_count++]);
    }
    buffer_free(&record.bytes);
    return done;
}

static int join_rows(struct plan *p, struct cells_of_row *all,
                     int wide[CELLS])
{
    struct cells_of_row head;
    char *row;

    memset(&head, 0, sizeof head);
    for (int i = 0; i < CELLS; i++)
        if (wide[i] > 0)
            snprintf(head.cell[i], CELL, "%s", heads[i]);
    widen(wide, &head);
    row = join_row(&head, wide);
    if (row == NULL)
        return -1;
    snprintf(p->row_head, sizeof p->row_head, "%s", row);
    free(row);
    for (size_t i = 0; i < p->row_count; i++) {
        p->rows[i] = join_row(&all[i], wide);
        if (p->rows[i] == NULL)
            return -1;
        p->row_wide = fmax(p->row_wide, mono_width(p->rows[i], LIST_SIZE));
    }
    p->row_wide = fmax(p->row_wide, mono_width(p->row_head, LIST_SIZE));
    return 0;
}

int list_make(struct plan *p)
{
    struct cells_of_row *all = calloc(p->now.count + 1, sizeof *all);
    int wide[CELLS] = { 0 };
    int done;

    p->rows = calloc(p->now.count + 1, sizeof *p->rows);
    done = all == NULL || p->rows == NULL ? -1 : fill_rows(p, all, wide);
    if (done == 0)
        done = join_rows(p, all, wide);
    free(all);
    return done == 0 ? DONE : out_of_memory();
}

/* ---- on sheets of its own ---- */

static const double column_apart = 5;
static const double list_above = 12;   /* the heading */

size_t list_columns(const struct plan *p)
{
    double wide = p->paper.frame.right - p->paper.frame.left - 8;
    double columns = floor((wide + column_apart) /
                           (p->row_wide + column_apart));

    return columns < 1 ? 1 : (size_t)columns;
}

/* The title block is at the right below, and columns end above it. */
size_t list_rows(const struct plan *p, size_t column)
{
    const struct paper *a = &p->paper;
    double right = a->frame.left + 4 + (double)(column + 1) * p->row_wide +
                   (double)column * column_apart;
    double bottom = right > a->column - 2 ? a->block : a->frame.bottom;

    return (size_t)((bottom - a->frame.top - list_above - 3) / LIST_STEP);
}
