/* A file's points with their places on the ground, as their texts say them. */
#include "coords.h"

#include "bhtf.h"
#include "commands.h"

#include <math.h>
#include <stdlib.h>
#include <string.h>

/* ---- one point ---- */

int coordinate_read(struct piece p, double *number)
{
    char word[64];
    double read;

    p = piece_trim(p);
    if (p.length >= sizeof word || !is_number(p, '.'))
        return -1;
    memcpy(word, p.bytes, p.length);
    word[p.length] = '\0';
    read = strtod(word, NULL);
    if (fabs(read) > COORDINATE_MOST)
        return -1;
    *number = read;
    return 0;
}

/* Blanks around a field do not count: one of blanks is empty. */
static int is_empty(struct piece field)
{
    return piece_trim(field).length == 0;
}

/* SPOT_PLACED, SPOT_LEVEL, or SPOT_OTHER. */
static enum spot_kind take_coordinates(struct spot *s, struct record *r)
{
    struct piece fields[POINT_FIELDS];

    if (!point_take(r, s->text, fields))
        return SPOT_OTHER;
    s->has_height = !is_empty(fields[HEIGHT]);
    if (s->has_height && coordinate_read(fields[HEIGHT], &s->height) != 0)
        return SPOT_OTHER;
    if (s->has_height && is_empty(fields[EASTING]) &&
        is_empty(fields[NORTHING]))
        return SPOT_LEVEL;
    return coordinate_read(fields[EASTING], &s->at.east) == 0 &&
           coordinate_read(fields[NORTHING], &s->at.north) == 0
        ? SPOT_PLACED : SPOT_OTHER;
}

void spot_of_text(struct spot *s, struct record *r, const struct piece *text)
{
    memset(s, 0, sizeof *s);
    s->kind = text == NULL ? SPOT_BARE : SPOT_EMPTY;
    if (text == NULL || text->length == 0)
        return;
    s->text = *text;
    s->kind = take_coordinates(s, r);
}

int has_coordinates(const struct spot *s)
{
    return s->kind == SPOT_PLACED || s->kind == SPOT_LEVEL;
}

static void read_name(struct spot *s, const uint8_t *key, uint32_t key_size)
{
    s->name = key;
    s->name_length = key_size;
    while (s->name_length > 0 && key[s->name_length - 1] == 0)
        s->name_length--;
}

static void read_text(struct spot *s, struct record *r,
                      const struct buffer *copy, uint32_t key_size)
{
    uint32_t offset, length;

    s->number = bhtf_lookup(copy->bytes, copy->length, s->name, key_size,
                            &offset, &length);
    s->text.bytes = copy->bytes + offset;
    s->text.length = length;
    if (s->number != BHTF_ACCEPTED)
        s->kind = SPOT_DAMAGED;
    else if (length == 0)
        s->kind = offset == 0 ? SPOT_BARE : SPOT_EMPTY;
    else
        s->kind = take_coordinates(s, r);
}

int spot_show(struct buffer *shown, const struct spot *s)
{
    shown->length = 0;
    return name_show(shown, s->name, s->name_length) |
           buffer_put_byte(shown, '\0');
}

void spot_at(struct spot *s, struct record *r, const struct buffer *copy,
             uint32_t key_size, uint32_t slot)
{
    uint32_t place;

    memset(s, 0, sizeof *s);
    bhtf_walk(copy->bytes, copy->length, slot, &s->slot, &place);
    read_name(s, copy->bytes + place, key_size);
    read_text(s, r, copy, key_size);
}

/* ---- all points ---- */

static size_t count_taken(const struct buffer *copy)
{
    uint32_t slot, place;
    size_t count = 0;

    bhtf_walk(copy->bytes, copy->length, 0, &slot, &place);
    for (; place != 0; count++)
        bhtf_walk(copy->bytes, copy->length, slot + 1, &slot, &place);
    return count;
}

static int read_spots(struct site *s)
{
    const struct buffer *copy = &s->copy;
    struct record record;
    uint32_t slot, place;

    s->count = count_taken(copy);
    s->spots = calloc(s->count + 1, sizeof *s->spots);
    if (s->spots == NULL)
        return out_of_memory();
    memset(&record, 0, sizeof record);
    bhtf_walk(copy->bytes, copy->length, 0, &slot, &place);
    for (size_t i = 0; i < s->count; i++) {
        s->spots[i].slot = slot;
        read_name(&s->spots[i], copy->bytes + place, s->key_size);
        if (!s->names_only)
            read_text(&s->spots[i], &record, copy, s->key_size);
        s->kinds[s->spots[i].kind]++;
        bhtf_walk(copy->bytes, copy->length, slot + 1, &slot, &place);
    }
    buffer_free(&record.bytes);
    return DONE;
}

static int open_file(struct site *s, const char *file, unsigned wait)
{
    uint32_t number;

    if (image_copy(&s->copy, file, wait) != 0)
        return TROUBLE;
    number = ask_header(s->copy.bytes, s->copy.length, &s->key_size);
    return number == BHTF_ACCEPTED ? read_spots(s) : refuse(file, number);
}

int site_open(struct site *s, const char *file, unsigned wait)
{
    memset(s, 0, sizeof *s);
    return open_file(s, file, wait);
}

int site_open_names(struct site *s, const char *file, unsigned wait)
{
    memset(s, 0, sizeof *s);
    s->names_only = 1;
    return open_file(s, file, wait);
}

int site_of_image(struct site *s, const uint8_t *image, size_t length)
{
    memset(s, 0, sizeof *s);
    s->borrowed = 1;
    s->copy.bytes = (uint8_t *)image; /* is only read */
    s->copy.length = length;
    ask_header(s->copy.bytes, s->copy.length, &s->key_size);
    return read_spots(s);
}

int site_of(struct site *s, const uint8_t *image, size_t length)
{
    memset(s, 0, sizeof *s);
    if (buffer_put(&s->copy, image, length) != 0)
        return out_of_memory();
    if (ask_header(s->copy.bytes, s->copy.length,
                   &s->key_size) != BHTF_ACCEPTED)
        return DONE;
    return read_spots(s);
}

void site_close(struct site *s)
{
    if (!s->borrowed)
        buffer_free(&s->copy);
    free(s->spots);
    s->spots = NULL;
    s->count = 0;
}

/* ---- by name ---- */

int spot_order(const struct spot *a, const struct spot *b)
{
    size_t shorter = a->name_length < b->name_length ? a->name_length
                                                     : b->name_length;
    int order = memcmp(a->name, b->name, shorter);

    if (order != 0)
        return order < 0 ? -1 : 1;
    return a->name_length < b->name_length ? -1
                                           : a->name_length > b->name_length;
}

static int by_name(const void *a, const void *b)
{
    return spot_order(a, b);
}

void site_sort(struct site *s)
{
    if (s->count > 1)
        qsort(s->spots, s->count, sizeof *s->spots, by_name);
}

const struct spot *site_find(const struct site *s, const uint8_t *name,
                             size_t length)
{
    struct spot wanted;

    memset(&wanted, 0, sizeof wanted);
    wanted.name = name;
    wanted.name_length = length;
    if (s->count == 0 || length == 0)
        return NULL;
    return bsearch(&wanted, s->spots, s->count, sizeof *s->spots, by_name);
}

/* ---- two sites ---- */

int merge_next(struct merge *m, const struct spot **old,
               const struct spot **now)
{
    int order;

    *old = m->old_next < m->old->count ? &m->old->spots[m->old_next] : NULL;
    *now = m->now_next < m->now->count ? &m->now->spots[m->now_next] : NULL;
    if (*old != NULL && *now != NULL) {
        order = spot_order(*old, *now);
        if (order < 0)
            *now = NULL;
        else if (order > 0)
            *old = NULL;
    }
    m->old_next += *old != NULL;
    m->now_next += *now != NULL;
    return *old != NULL || *now != NULL;
}

struct move spot_move(const struct spot *old, const struct spot *now)
{
    struct move m = { 0, 0, 0, 0, 0 };

    if (old->kind == SPOT_PLACED && now->kind == SPOT_PLACED) {
        m.east = (now->at.east - old->at.east) * 1000;
        m.north = (now->at.north - old->at.north) * 1000;
    }
    if (old->has_height && now->has_height)
        m.height = (now->height - old->height) * 1000;
    m.plane = hypot(m.east, m.north);
    m.all = hypot(m.plane, m.height);
    return m;
}

/* ---- what is left out ---- */

static void say_kind(const char *file, size_t count, const char *why)
{
    if (count > 0)
        complain("%s: %lu %s left out: %s", file, (unsigned long)count,
                 count == 1 ? "point" : "points", why);
}

int site_say_left_out(const struct site *s, const char *file,
                      const char *level)
{
    say_kind(file, s->kinds[SPOT_BARE], "no text");
    say_kind(file, s->kinds[SPOT_EMPTY], "the text is empty");
    say_kind(file, s->kinds[SPOT_OTHER], "the text is not coordinates");
    say_kind(file, s->kinds[SPOT_DAMAGED], "damaged");
    if (level != NULL)
        say_kind(file, s->kinds[SPOT_LEVEL], level);
    if (s->kinds[SPOT_DAMAGED] > 0)
        return REFUSED;
    return level != NULL && s->kinds[SPOT_LEVEL] > 0 ? PARTIAL : DONE;
}
