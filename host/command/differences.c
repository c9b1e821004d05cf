/* The points that changed from one file to another, a line each. */
#include "change.h"

#include "complain.h"
#include "utf8.h"

#include <string.h>

struct lines {
    struct reckoning *r;
    FILE *out;
    struct buffer name;
    struct buffer words;
};

static int print_line(struct lines *l, const struct became *b,
                      const struct spot *old, const struct spot *now)
{
    const char *name = (const char *)l->name.bytes;
    int wide = places_of(name);

    l->words.length = 0;
    if (became_words(l->r, &l->words, b, old, now) != 0)
        return out_of_memory();
    fprintf(l->out, "%-6s %s%*s ", change_word(b->change), name,
           wide < 16 ? 16 - wide : 0, "");
    fwrite(l->words.bytes, 1, l->words.length, l->out);
    putc('\n', l->out);
    return DONE;
}

/* ---- the same as fields ---- */

/* Three coordinates with the digits of the text. */
static void print_coordinates(struct lines *l, const struct spot *s)
{
    struct piece fields[POINT_FIELDS];
    int known = s != NULL && has_coordinates(s) &&
                point_take(&l->r->records[0], s->text, fields);

    for (int i = EASTING; i <= HEIGHT; i++) {
        putc('\t', l->out);
        if (known) {
            struct piece number = piece_trim(fields[i]);

            fwrite(number.bytes, 1, number.length, l->out);
        }
    }
}

static void print_millimetres(const struct lines *l, int known, double mm)
{
    if (known)
        fprintf(l->out, "\t%.3f", mm > -0.0005 && mm < 0.0005 ? 0 : mm);
    else
        putc('\t', l->out);
}

static int print_fields(struct lines *l, const struct became *b,
                        const struct spot *old, const struct spot *now)
{
    int both = old != NULL && now != NULL && has_coordinates(old) &&
               has_coordinates(now);
    int placed = both && old->kind == SPOT_PLACED && now->kind == SPOT_PLACED;
    int levelled = both && old->has_height && now->has_height;

    fprintf(l->out, "%s\t%s", change_word(b->change),
            (const char *)l->name.bytes);
    print_millimetres(l, b->change == MOVED, b->move.all);
    print_coordinates(l, old);
    print_coordinates(l, now);
    print_millimetres(l, placed, b->move.plane);
    print_millimetres(l, levelled, b->move.height);
    fprintf(l->out, "\t%s\n", !both ? "" : b->details & DETAIL_NOTE ? "changed"
                                                                   : "same");
    return DONE;
}

/* ---- all of them ---- */

static int print_changes(struct lines *l, const struct site *old,
                         const struct site *now, int tsv)
{
    struct merge merge = { old, now, 0, 0 };
    const struct spot *before, *after;
    int status = DONE;

    while (status == DONE && merge_next(&merge, &before, &after)) {
        struct became b = reckon(l->r, before, after);

        if (b.change == SAME || b.change == WITHIN)
            continue;
        if (spot_show(&l->name, after != NULL ? after : before) != 0)
            return out_of_memory();
        status = (tsv ? print_fields : print_line)(l, &b, before, after);
    }
    return status;
}

int differences_print(struct reckoning *r, struct site *old, struct site *now,
                      int tsv, FILE *out)
{
    struct lines l;
    int status;

    memset(&l, 0, sizeof l);
    l.r = r;
    l.out = out;
    site_sort(old);
    site_sort(now);
    if (tsv)
        fputs("change\tname\tmm\told easting\told northing\told height\t"
              "new easting\tnew northing\tnew height\tplan mm\theight mm\t"
              "note\n", out);
    status = print_changes(&l, old, now, tsv);
    buffer_free(&l.name);
    buffer_free(&l.words);
    return status;
}
