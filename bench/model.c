#include "model.h"

#include <stdlib.h>

static void *room_for(size_t count, size_t size)
{
    void *room = calloc(count, size);

    if (!room)
        abort();
    return room;
}

void model_begin(struct model *m, uint64_t seed, uint32_t key_size,
                 uint32_t slots, uint32_t swaps)
{
    m->random.state = seed;
    m->key_size = key_size;
    m->slots = slots;
    m->names_drawn = MISSES + slots + swaps;
    m->names = draw_names(&m->random, key_size, m->names_drawn);
    m->held = room_for(slots, sizeof *m->held);
    m->calls.keys = room_for(CALLS_MAX, key_size);
    m->calls.others = room_for(CALLS_MAX, key_size);
    m->calls.points = room_for(CALLS_MAX, sizeof *m->calls.points);
    model_empty(m);
}

void model_empty(struct model *m)
{
    m->next_name = MISSES;
    m->count = 0;
}

void model_end(struct model *m)
{
    free(m->names);
    free(m->held);
    free(m->calls.keys);
    free(m->calls.others);
    free(m->calls.points);
}

static uint8_t *key_at(const struct model *m, uint8_t *keys, uint32_t i)
{
    return keys + (size_t)i * m->key_size;
}

static void set_key(struct model *m, uint8_t *keys, uint32_t i, uint32_t name)
{
    memcpy(key_at(m, keys, i), name_of(m, name), m->key_size);
}

static void begin_calls(struct model *m, uint32_t count)
{
    if (count > CALLS_MAX)
        abort();
    m->calls.count = count;
}

/* A point of a name not used before. */
static struct point draw_point(struct model *m)
{
    struct point p;

    if (m->next_name == m->names_drawn)
        abort();
    p.name = m->next_name++;
    p.length = draw_message(&m->random, p.name, p.text);
    return p;
}

static uint32_t draw_held(struct model *m)
{
    return draw_below(&m->random, m->count);
}

void draw_adds(struct model *m, uint32_t count)
{
    begin_calls(m, count);
    for (uint32_t i = 0; i < count; i++) {
        struct point p = draw_point(m);

        set_key(m, m->calls.keys, i, p.name);
        m->calls.points[i] = p;
        m->held[m->count++] = p;
    }
}

void draw_hits(struct model *m, uint32_t count)
{
    begin_calls(m, count);
    for (uint32_t i = 0; i < count; i++)
        set_key(m, m->calls.keys, i, m->held[draw_held(m)].name);
}

void draw_misses(struct model *m, uint32_t count)
{
    begin_calls(m, count);
    for (uint32_t i = 0; i < count; i++)
        set_key(m, m->calls.keys, i, draw_below(&m->random, MISSES));
}

/* Other coordinates and as many bytes as before. */
static void redraw(struct model *m, struct point *p)
{
    uint8_t text[TEXT_MAX];
    uint32_t length = draw_message(&m->random, p->name, text);

    memcpy(p->text, text, length < p->length ? length : p->length);
}

void draw_replaces(struct model *m, uint32_t count)
{
    begin_calls(m, count);
    for (uint32_t i = 0; i < count; i++) {
        struct point *p = &m->held[draw_held(m)];

        redraw(m, p);
        set_key(m, m->calls.keys, i, p->name);
        m->calls.points[i] = *p;
    }
}

static void lengthen(struct point *p, const char *more, uint32_t length)
{
    if (p->length + length > TEXT_MAX)
        abort();
    memcpy(p->text + p->length, more, length);
    p->length += length;
}

/* One byte more than before, each point in turn. */
void draw_renewals(struct model *m, uint32_t count)
{
    begin_calls(m, count);
    for (uint32_t i = 0; i < count; i++) {
        struct point *p = &m->held[i % m->count];

        redraw(m, p);
        lengthen(p, "!", 1);
        set_key(m, m->calls.keys, i, p->name);
        m->calls.points[i] = *p;
    }
}

void draw_appends(struct model *m, uint32_t count)
{
    begin_calls(m, count);
    for (uint32_t i = 0; i < count; i++) {
        struct point *p = &m->held[i % m->count];
        struct point *more = &m->calls.points[i];

        lengthen(p, " ok.", 4);
        set_key(m, m->calls.keys, i, p->name);
        more->length = 4;
        memcpy(more->text, " ok.", 4);
    }
}

/* A held point goes, a new one comes. */
void draw_swaps(struct model *m, uint32_t count)
{
    begin_calls(m, count);
    for (uint32_t i = 0; i < count; i++) {
        struct point *p = &m->held[draw_held(m)];

        set_key(m, m->calls.keys, i, p->name);
        *p = draw_point(m);
        set_key(m, m->calls.others, i, p->name);
        m->calls.points[i] = *p;
    }
}

static int point_holds(const struct model *m, const struct point *p,
                       uint64_t *common, uint64_t *exact)
{
    size_t length;
    const uint8_t *origin = store.image ? store.image(&length) : NULL;
    struct text text;

    if (store.lookup(name_of(m, p->name), &text) != DONE)
        return 0;
    if (text.length != p->length || memcmp(text.bytes, p->text, p->length))
        return 0;
    for (uint32_t i = 0; i < p->length; i++)
        *common = mix(*common, text.bytes[i]);
    if (origin)
        *exact = mix(*exact, (uint64_t)(text.bytes - origin));
    return 1;
}

/* The sum of the held names, as a walk would see them. */
static uint64_t sum_of_names(const struct model *m)
{
    struct seen seen = { NULL, m->key_size, 0, 0, 0 };

    for (uint32_t i = 0; i < m->count; i++)
        see(&seen, name_of(m, m->held[i].name));
    return seen.names;
}

static int walk_holds(const struct model *m, uint64_t *common, uint64_t *exact)
{
    size_t length;
    struct seen seen = { NULL, m->key_size, 0, 0, 0 };

    if (store.image)
        seen.origin = store.image(&length);
    if (store.walk(&seen) != DONE)
        return 0;
    *common = mix(*common, seen.names);
    *exact = mix(*exact, seen.places);
    return seen.points == m->count && seen.names == sum_of_names(m);
}

int model_holds(const struct model *m, uint64_t *common, uint64_t *exact)
{
    int holds = store.count() == m->count;

    if (store.begin && store.begin(0))
        return 0;
    for (uint32_t i = 0; holds && i < m->count; i++)
        holds = point_holds(m, &m->held[i], common, exact);
    holds = holds && walk_holds(m, common, exact);
    if (store.end && store.end())
        return 0;
    return holds;
}
