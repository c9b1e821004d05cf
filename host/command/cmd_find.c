/* find: the points whose names fit a pattern, and perhaps where they stand.
 *
 * The library lists the slots whose names lie in ranges of bytes; a class that
 * is no range is asked for as the least range around it, and what does not fit
 * it is left out again. */
#include "commands.h"

#include "bhtf.h"
#include "image_header.h"
#include "plate.h"
#include "rows.h"

#include <math.h>
#include <stdlib.h>
#include <string.h>

struct found {
    struct spot spot;
    double distance;     /* to the place of --near, else 0 */
};

/* What is looked for, and what was found. */
struct find {
    const struct options *o;
    struct buffer copy;
    uint32_t key_size;
    uint8_t *list;       /* slots, as the library writes them */
    size_t list_length;
    uint8_t *seen;       /* slots that are kept already */
    struct found *found;
    size_t count;
    struct at near;
    double radius;
};

/* ---- --near ---- */

static int near_read(struct find *f)
{
    const char *word = f->o->near;
    double numbers[3];

    for (int i = 0; i < 3; i++) {
        const char *end = i < 2 ? strchr(word, ',') : word + strlen(word);
        struct piece p;

        if (end == NULL)
            break;
        p.bytes = (const uint8_t *)word;
        p.length = (size_t)(end - word);
        if (coordinate_read(p, &numbers[i]) != 0)
            break;
        if (i == 2 && numbers[2] >= 0) {
            f->near.east = numbers[0];
            f->near.north = numbers[1];
            f->radius = numbers[2];
            return DONE;
        }
        word = end + (i < 2);
    }
    complain("--near needs easting,northing,radius in metres, and not %s",
             f->o->near);
    return TROUBLE;
}

/* ---- one pattern ---- */

/* Keeps the point if it is new here, and near enough. */
static void keep(struct find *f, struct record *record, uint32_t slot)
{
    struct found *kept = &f->found[f->count];

    if (f->seen[slot])
        return;
    f->seen[slot] = 1;
    spot_at(&kept->spot, record, &f->copy, f->key_size, slot);
    kept->distance = 0;
    if (f->o->given & OPTION_NEAR) {
        if (kept->spot.kind != SPOT_PLACED)
            return;
        kept->distance = hypot(kept->spot.at.east - f->near.east,
                               kept->spot.at.north - f->near.north);
        if (kept->distance > f->radius)
            return;
    }
    f->count++;
}

static uint32_t slot_listed(const struct find *f, uint32_t i)
{
    const uint8_t *at = f->list + 4 * (size_t)i;

    return (uint32_t)at[0] << 24 | (uint32_t)at[1] << 16 |
           (uint32_t)at[2] << 8 | at[3];
}

/* What --alike takes a pattern for, on standard error. */
static void say_alike(const struct find *f, const char *pattern)
{
    if (!(f->o->given & OPTION_ALIKE) || f->o->quiet)
        return;
    fprintf(stderr, "bhtf: %s: tried", pattern);
    for (const char *at = pattern; *at != '\0'; at++) {
        const char *group = plate_alike((uint8_t)*at);

        if (group != NULL)
            fprintf(stderr, " %c as one of %s", *at, group);
    }
    fputc('\n', stderr);
}

static int find_pattern(struct find *f, struct record *record,
                        const char *pattern)
{
    struct plate plate;
    const char *wrong = plate_read(&plate, pattern, f->key_size,
                                   (f->o->given & OPTION_ALIKE) != 0);
    uint32_t number, found;

    if (wrong != NULL) {
        complain("%s: %s", pattern, wrong);
        return TROUBLE;
    }
    say_alike(f, pattern);
    number = bhtf_select(f->copy.bytes, f->copy.length, plate.lowest,
                         f->key_size, plate.highest, f->key_size, f->list,
                         f->list_length, &found);
    if (number != BHTF_ACCEPTED)
        return refuse(f->o->word[0], number);
    for (uint32_t i = 0; i < found; i++) {
        uint32_t slot = slot_listed(f, i), place;

        bhtf_walk(f->copy.bytes, f->copy.length, slot, &slot, &place);
        if (plate_fits(&plate, f->copy.bytes + place))
            keep(f, record, slot);
    }
    return DONE;
}

static int find_all(struct find *f)
{
    struct record record;
    int status = DONE;

    memset(&record, 0, sizeof record);
    for (int i = 1; i < f->o->words && status == DONE; i++)
        status = find_pattern(f, &record, f->o->word[i]);
    buffer_free(&record.bytes);
    return status;
}

/* ---- what was found ---- */

static void put_csv(struct buffer *line, struct rows *r, const struct spot *s)
{
    const struct piece none = { (const uint8_t *)"", 0 };
    struct piece fields[POINT_FIELDS] = { none, none, none, none };
    struct piece name;
    int placed = point_take(&r->record, s->text, fields);

    name.bytes = r->name.bytes;
    name.length = r->name.length - 1;
    csv_put(line, name);
    for (int i = 0; i < POINT_FIELDS; i++) {
        buffer_put_byte(line, ',');
        csv_put(line, placed ? fields[i] : none);
    }
    buffer_put_byte(line, ',');
    csv_put(line, placed ? none : s->text);
}

static int put_csv_row(struct rows *r, const struct spot *s)
{
    struct buffer line = { NULL, 0, 0 };

    if (spot_show(&r->name, s) != 0)
        return out_of_memory();
    put_csv(&line, r, s);
    fwrite(line.bytes, 1, line.length, stdout);
    putchar('\n');
    buffer_free(&line);
    return DONE;
}

/* By distance; where that is equal, by slot. */
static int by_distance(const void *a, const void *b)
{
    const struct found *x = a, *y = b;

    if (x->distance != y->distance)
        return x->distance < y->distance ? -1 : 1;
    return x->spot.slot < y->spot.slot ? -1 : x->spot.slot > y->spot.slot;
}

static int put_row(const struct find *f, struct rows *r,
                   const struct found *found)
{
    if ((f->o->given & OPTION_NEAR) && !(f->o->given & OPTION_FORMS))
        printf("%8.3f m  ", found->distance);
    return f->o->given & OPTION_CSV ? put_csv_row(r, &found->spot)
                                    : rows_put(r, &found->spot);
}

static int put_rows(const struct find *f)
{
    struct rows r;
    int status = DONE;

    qsort(f->found, f->count, sizeof *f->found, by_distance);
    memset(&r, 0, sizeof r);
    r.form = f->o->given & OPTION_JSON ? ROW_JSON
             : f->o->given & OPTION_TSV ? ROW_TSV : ROW_TEXT;
    if (f->o->given & OPTION_CSV)
        puts("name,easting,northing,height,note,text");
    else
        rows_begin(&r);
    for (size_t i = 0; i < f->count && status == DONE; i++)
        status = put_row(f, &r, &f->found[i]);
    rows_free(&r);
    return finish_output(status);
}

/* ---- the command ---- */

static int make_room(struct find *f)
{
    size_t slots = header_read(f->copy.bytes).slots;

    f->list_length = 4 * slots;
    f->list = malloc(f->list_length);
    f->seen = calloc(slots, 1);
    f->found = calloc(slots + 1, sizeof *f->found);
    return f->list == NULL || f->seen == NULL || f->found == NULL
           ? out_of_memory() : DONE;
}

static int find(struct find *f)
{
    int status = copy_accepted(&f->copy, f->o, &f->key_size);

    if (status == DONE)
        status = make_room(f);
    if (status == DONE)
        status = find_all(f);
    if (status == DONE && f->count == 0) {
        complain("%s: no name fits%s", f->o->word[0],
                 f->o->given & OPTION_ALIKE ? ""
                 : "; --alike also tries letters that look alike");
        return REFUSED;
    }
    return status == DONE ? put_rows(f) : status;
}

int run_find(const struct options *o)
{
    struct find f;
    uint64_t forms = o->given & OPTION_FORMS;
    int status;

    memset(&f, 0, sizeof f);
    f.o = o;
    if ((forms & (forms - 1)) != 0) {
        complain("--tsv, --json or --csv, one of them");
        return TROUBLE;
    }
    if ((o->given & OPTION_NEAR) && near_read(&f) != DONE)
        return TROUBLE;
    status = find(&f);
    free(f.list);
    free(f.seen);
    free(f.found);
    buffer_free(&f.copy);
    return status;
}
