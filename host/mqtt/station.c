/* A station's side of the protocol. */
#include "station.h"

#include "bhtf_delta.h"
#include "object.h"
#include "sum.h"

#include <stdio.h>
#include <string.h>

/* What is being done: nothing; records from the copy's state on; a snapshot's
 * manifest; its stretches; records from the snapshot on. */
enum { IDLE, FROM_COPY, MANIFEST, STRETCHES, FROM_SNAPSHOT };

/* What an object is. */
enum { NONE, RECORD, SNAPSHOT, STRETCH };

static void go_on(struct station *s);

static uint8_t *lend(struct station *s, unsigned place, size_t bytes)
{
    return s->port->lend(s->port->with, place, bytes);
}

static int same_sum(const uint8_t *a, const uint8_t *b)
{
    return memcmp(a, b, WIRE_SUM) == 0;
}

static int same_line(const struct wire_place *a, const struct wire_place *b)
{
    return a->term == b->term && memcmp(a->line, b->line, WIRE_LINE) == 0;
}

/* Is the copy at the place that is known? */
static int at_place(const struct station *s)
{
    return s->placed && s->length > 0 && same_sum(s->sum, s->at.sum);
}

static int has_sum(const uint8_t *bytes, size_t size, const uint8_t *sum)
{
    uint8_t own[WIRE_SUM];

    sum_of(bytes, size, own);
    return same_sum(own, sum);
}

/* ---- what the office is told ---- */

static void own_topic(const struct station *s, char topic[WIRE_TOPIC],
                      const char *kind)
{
    snprintf(topic, WIRE_TOPIC, "%s/%s", kind, s->name);
}

static void tell(struct station *s)
{
    struct wire_at at = { s->at, s->refusal };
    char topic[WIRE_TOPIC];
    uint8_t bytes[WIRE_AT];

    memcpy(at.place.sum, s->sum, WIRE_SUM);
    s->told = s->refusal;
    own_topic(s, topic, "at");
    s->port->publish(s->port->with, topic, bytes, wire_at_put(bytes, &at));
}

static void refuse(struct station *s, uint32_t refusal)
{
    s->refusal = refusal;
    s->port->event(s->port->with, STATION_REFUSED, &s->at, refusal);
    if (s->told != refusal)
        tell(s);
}

static void want(struct station *s, const struct wire_place *place)
{
    char topic[WIRE_TOPIC];
    uint8_t bytes[WIRE_WANT];

    own_topic(s, topic, "want");
    s->port->publish(s->port->with, topic, bytes,
                     place != NULL ? wire_want_put(bytes, place) : 0);
}

/* ---- objects on their way ---- */

static void topic_of(const struct station_get *g, uint32_t chunk,
                     char topic[WIRE_TOPIC])
{
    if (g->kind == RECORD)
        wire_topic_record(topic, g->level, g->from, chunk);
    else if (g->kind == SNAPSHOT)
        wire_topic_manifest(topic, g->from, chunk);
    else
        wire_topic_stretch(topic, g->name, chunk);
}

static void ask(struct station *s, struct station_get *g, uint32_t chunk)
{
    char topic[WIRE_TOPIC];

    topic_of(g, chunk, topic);
    s->port->subscribe(s->port->with, topic);
}

static struct station_get *new_get(struct station *s, int kind)
{
    for (int i = 0; i < STATION_GETS; i++)
        if (s->get[i].kind == NONE) {
            memset(&s->get[i], 0, sizeof s->get[i]);
            s->get[i].kind = kind;
            return &s->get[i];
        }
    return NULL;
}

static void begin_get(struct station *s, struct station_get *g)
{
    g->asked = 1;
    ask(s, g, 0);
}

/* Subscriptions stay until an object is there, so that a newer one of that name
 * is heard; then all of them end. */
static void end_get(struct station *s, struct station_get *g)
{
    char topic[WIRE_TOPIC];

    for (uint32_t i = 0; i < g->asked; i++) {
        topic_of(g, i, topic);
        s->port->unsubscribe(s->port->with, topic);
    }
    g->kind = NONE;
}

static unsigned outstanding(const struct station *s)
{
    unsigned n = 0;

    for (int i = 0; i < STATION_GETS; i++)
        if (s->get[i].kind != NONE && !s->get[i].done)
            n += s->get[i].asked - s->get[i].have;
    return n;
}

/* Which piece of memory is its. */
static unsigned place_of(const struct station *s, const struct station_get *g)
{
    return (unsigned)(g - s->get);
}

/* The bits behind its bytes: which chunks are there. */
static uint8_t *bits_of(const struct station_get *g, uint8_t *bytes)
{
    return bytes + (size_t)g->count * g->chunk;
}

static size_t bits_size(const struct station_get *g)
{
    return (size_t)g->count / 8 + 1;
}

static size_t size_of(const struct station_get *g)
{
    return (size_t)(g->count - 1) * g->chunk + g->last;
}

/* No more bytes than an object of that kind may have, whatever it says. */
static uint64_t most(const struct station *s, const struct station_get *g)
{
    if (g->kind == RECORD)
        return OBJECT_ROOM((uint64_t)s->goal.length + BHTF_DELTA_MOST);
    if (g->kind == STRETCH)
        return OBJECT_ROOM((uint64_t)s->stretch);
    return OBJECT_ROOM(WIRE_MANIFEST + (uint64_t)s->goal.length);
}

/* The first chunk, or that of a newer object of this name, says how long it
 * is. */
static int first_chunk(struct station *s, struct station_get *g,
                       const struct wire_chunk *c)
{
    uint64_t all = (uint64_t)c->count * c->size + c->count / 8 + 1;
    uint8_t *bytes;

    if ((uint64_t)(c->count - 1) * c->size + 1 > most(s, g) ||
        c->size > most(s, g) || all > SIZE_MAX)
        return 0;
    g->count = c->count;
    g->chunk = (uint32_t)c->size;
    g->last = (uint32_t)c->size;
    g->have = 0;
    g->probed = 0;
    g->done = 0;
    memcpy(g->object, c->object, WIRE_CHECK);
    bytes = lend(s, place_of(s, g), (size_t)all);
    if (bytes == NULL) {
        g->count = 0;
        return 0;
    }
    memset(bits_of(g, bytes), 0, bits_size(g));
    if (g->asked > g->count)
        g->asked = g->count;
    for (uint32_t i = 1; i < g->asked; i++)
        ask(s, g, i);
    return 1;
}

static int put_chunk(struct station *s, struct station_get *g,
                     const struct wire_chunk *c)
{
    uint8_t *bytes = lend(s, place_of(s, g), 0), *bits = bits_of(g, bytes);
    int is_last = c->number == g->count - 1;

    if (bits[c->number / 8] >> c->number % 8 & 1)
        return 1;
    if (is_last ? c->size > g->chunk : c->size != g->chunk)
        return 0;
    if (is_last)
        g->last = (uint32_t)c->size;
    memcpy(bytes + (size_t)c->number * g->chunk, c->data, c->size);
    bits[c->number / 8] |= (uint8_t)(1u << c->number % 8);
    g->have++;
    return 1;
}

/* Is what its chunks make the object that they are of? */
static int whole(struct station *s, struct station_get *g)
{
    uint8_t sum[WIRE_SUM];

    sum_of(lend(s, place_of(s, g), 0), size_of(g), sum);
    return memcmp(sum, g->object, WIRE_CHECK) == 0;
}

/* Waits for a newer object of this name. */
static void wait_for_newer(struct station_get *g)
{
    g->count = 0;
    g->have = 0;
    g->done = 0;
}

static struct station_get *get_of(struct station *s, const char *topic,
                                  uint32_t chunk)
{
    char own[WIRE_TOPIC];

    for (int i = 0; i < STATION_GETS; i++) {
        if (s->get[i].kind == NONE)
            continue;
        topic_of(&s->get[i], chunk, own);
        if (strcmp(own, topic) == 0)
            return &s->get[i];
    }
    return NULL;
}

static void on_chunk(struct station *s, const char *topic, const uint8_t *bytes,
                     size_t size)
{
    struct station_get *g;
    struct wire_chunk c;

    if (!wire_chunk_get(&c, bytes, size)) {
        if (s->work != IDLE)
            refuse(s, WIRE_DAMAGED);
        return;
    }
    g = get_of(s, topic, c.number);
    if (g == NULL)
        return;
    if (g->count == 0 || memcmp(g->object, c.object, WIRE_CHECK) != 0) {
        if (c.number != 0) {
            if (g->count > 0)
                ask(s, g, 0);  /* of another object than the first chunk's */
            return;
        }
        if (!first_chunk(s, g, &c)) {
            refuse(s, WIRE_TOO_LARGE);
            return;
        }
    }
    if (g->done)
        return;
    if (c.count != g->count || !put_chunk(s, g, &c)) {
        refuse(s, WIRE_DAMAGED);
        return;
    }
    if (g->have < g->count) {
        go_on(s);
    } else if (!whole(s, g)) {
        wait_for_newer(g);
        refuse(s, WIRE_DAMAGED);
    } else {
        g->done = 1;
        go_on(s);
    }
}

/* ---- work ---- */

static void drop_work(struct station *s)
{
    for (int i = 0; i < STATION_GETS; i++)
        if (s->get[i].kind != NONE)
            end_get(s, &s->get[i]);
    if (s->work >= MANIFEST)
        want(s, NULL);
    s->work = IDLE;
}

/* The copy is what the head says: `image`, or what it was. */
static void settle(struct station *s, const uint8_t *image)
{
    uint32_t refusal = s->port->commit(s->port->with, image, s->goal.length,
                                       &s->goal.place);

    if (refusal != WIRE_FINE) {
        drop_work(s);
        refuse(s, refusal);
        return;
    }
    s->at = s->goal.place;
    s->placed = 1;
    s->length = s->goal.length;
    memcpy(s->sum, s->at.sum, WIRE_SUM);
    s->refusal = WIRE_FINE;
    s->no_records = 0;
    s->kept = 0;
    drop_work(s);
    tell(s);
    s->port->event(s->port->with, STATION_EQUAL, &s->at, 0);
}

/* What was fetched does not lead to the head. With records from the copy's own
 * state on, a snapshot is next. Else the new image may have been begun in a
 * history that an office, restored from a backup, has left: once more from the
 * beginning, and then not before the next head. */
static void misfit(struct station *s)
{
    int from_copy = s->work == FROM_COPY;

    drop_work(s);
    if (from_copy)
        s->no_records = 1;
    else
        refuse(s, WIRE_UNFIT);
    if (from_copy || !s->retried) {
        s->retried = !from_copy;
        go_on(s);
    }
}

static void write_stretches(const uint8_t *record, uint8_t *image)
{
    struct bhtf_stretch part;

    memset(&part, 0, sizeof part);
    while (bhtf_delta_next(record, &part))
        memcpy(image + part.offset, record + part.at, part.length);
}

/* The record of an object, or NULL if it does not go on from the new image. */
static const uint8_t *record_of(struct station *s, struct station_get *g,
                                struct bhtf_delta *d)
{
    size_t room = (size_t)s->goal.length + BHTF_DELTA_MOST, size;
    uint8_t *record = lend(s, STATION_PLAIN, room);

    if (record == NULL ||
        !object_unpack(record, room, &size, lend(s, place_of(s, g), 0),
                       size_of(g)) ||
        bhtf_delta_check(record, size, d) != BHTF_ACCEPTED ||
        d->image_len != s->goal.length || !same_sum(d->before, s->seq_sum))
        return NULL;
    return record;
}

/* Applies the records that are there, in their order: 0 if one does not fit. */
static int apply_records(struct station *s)
{
    for (int i = 0; i < STATION_GETS; i++) {
        struct station_get *g = &s->get[i];
        struct bhtf_delta d;
        const uint8_t *record;

        if (g->kind != RECORD || !g->done || g->from != s->seq)
            continue;
        record = record_of(s, g, &d);
        if (record == NULL)
            return 0;
        write_stretches(record, lend(s, STATION_WORK, 0));
        memcpy(s->seq_sum, d.after, WIRE_SUM);
        s->seq += g->level;
        end_get(s, g);
        i = -1;  /* the next one may be there already */
    }
    return 1;
}

static int ask_record(struct station *s)
{
    struct station_get *g;

    if (s->asked >= s->goal.place.seq || (g = new_get(s, RECORD)) == NULL)
        return 0;
    g->level = wire_level[wire_step(s->asked, s->goal.place.seq)];
    g->from = s->asked;
    s->asked += g->level;
    begin_get(s, g);
    return 1;
}

/* ---- a snapshot ---- */

static const uint8_t *name_at(struct station *s, uint32_t i)
{
    return lend(s, STATION_MANIFEST, 0) + WIRE_MANIFEST + (size_t)i * WIRE_NAME;
}

static uint32_t stretch_size(const struct station *s, uint32_t i)
{
    return i < s->stretches - 1 ? s->stretch
        : s->goal.length - (s->stretches - 1) * s->stretch;
}

static int has_stretch(struct station *s, uint32_t i)
{
    return lend(s, STATION_BITS, 0)[i / 8] >> i % 8 & 1;
}

static void got_stretch(struct station *s, uint32_t i)
{
    lend(s, STATION_BITS, 0)[i / 8] |= (uint8_t)(1u << i % 8);
    s->missing--;
}

static int named(const uint8_t *bytes, size_t size, const uint8_t *name)
{
    uint8_t sum[WIRE_SUM];

    sum_of(bytes, size, sum);
    return memcmp(sum, name, WIRE_NAME) == 0;
}

/* Is it there without being fetched: all zero, in the copy, or kept from before
 * a restart? */
static int own_stretch(struct station *s, uint32_t i, int from_copy)
{
    static const uint8_t zeros[WIRE_NAME];
    uint8_t *bytes = lend(s, STATION_WORK, 0) + (size_t)i * s->stretch;
    uint32_t size = stretch_size(s, i);

    if (memcmp(name_at(s, i), zeros, WIRE_NAME) == 0) {
        memset(bytes, 0, size);
        return 1;
    }
    if (from_copy && named(bytes, size, name_at(s, i)))
        return 1;
    return s->port->keep_get != NULL &&
           s->port->keep_get(s->port->with, name_at(s, i), bytes, size) &&
           named(bytes, size, name_at(s, i));
}

static int begin_stretches(struct station *s)
{
    uint8_t *work = lend(s, STATION_WORK, s->goal.length);
    uint8_t *bits = lend(s, STATION_BITS, (s->stretches + 7) / 8);
    int from_copy;

    if (work == NULL || bits == NULL)
        return 0;
    memset(bits, 0, (s->stretches + 7) / 8);
    from_copy = s->length == s->goal.length &&
                s->port->load(s->port->with, work, s->length) == 0;
    s->missing = s->stretches;
    s->next = 0;
    for (uint32_t i = 0; i < s->stretches; i++)
        if (own_stretch(s, i, from_copy))
            got_stretch(s, i);
    s->work = STRETCHES;
    return 1;
}

/* A manifest came. One of another line, or of that name of long ago: the right
 * one comes. */
static void take_manifest(struct station *s, struct station_get *g)
{
    size_t room = WIRE_MANIFEST + (size_t)s->goal.length, size;
    uint8_t *bytes = lend(s, STATION_MANIFEST, room);
    struct wire_manifest m;

    if (bytes == NULL || !object_unpack(bytes, room, &size,
                                        lend(s, place_of(s, g), 0), size_of(g)) ||
        !wire_manifest_get(&m, bytes, size) ||
        wire_order(&m.place, &s->pin) != 0 || m.length != s->goal.length) {
        wait_for_newer(g);
        refuse(s, WIRE_UNFIT);
        return;
    }
    memcpy(s->pin.sum, m.place.sum, WIRE_SUM);
    s->stretch = m.stretch < m.length ? m.stretch : m.length;
    s->stretches = m.count;
    end_get(s, g);
    if (!begin_stretches(s)) {
        drop_work(s);
        refuse(s, WIRE_TOO_LARGE);
    }
}

/* Keeps a stretch over a restart, but no more of them than two images have: a
 * broker that makes up snapshots must not fill the disk. */
static void keep(struct station *s, const uint8_t *name, const uint8_t *bytes,
                 size_t size)
{
    if (s->port->keep_put == NULL ||
        s->kept + size > 2 * (uint64_t)s->goal.length)
        return;
    s->kept += size;
    s->port->keep_put(s->port->with, name, bytes, size);
}

/* A stretch came, which may stand in several places. */
static void take_stretch(struct station *s, struct station_get *g)
{
    uint8_t *plain = lend(s, STATION_PLAIN, s->stretch);
    size_t size;

    if (plain == NULL || !object_unpack(plain, s->stretch, &size,
                                        lend(s, place_of(s, g), 0), size_of(g)) ||
        !named(plain, size, g->name)) {
        wait_for_newer(g);
        refuse(s, WIRE_DAMAGED);
        return;
    }
    for (uint32_t i = 0; i < s->stretches; i++)
        if (!has_stretch(s, i) && stretch_size(s, i) == size &&
            memcmp(name_at(s, i), g->name, WIRE_NAME) == 0) {
            memcpy(lend(s, STATION_WORK, 0) + (size_t)i * s->stretch, plain,
                   size);
            got_stretch(s, i);
        }
    keep(s, g->name, plain, size);
    end_get(s, g);
}

static int on_its_way(const struct station *s, const uint8_t *name)
{
    for (int i = 0; i < STATION_GETS; i++)
        if (s->get[i].kind == STRETCH &&
            memcmp(s->get[i].name, name, WIRE_NAME) == 0)
            return 1;
    return 0;
}

static int ask_stretch(struct station *s)
{
    struct station_get *g;

    while (s->next < s->stretches &&
           (has_stretch(s, s->next) || on_its_way(s, name_at(s, s->next))))
        s->next++;
    if (s->next == s->stretches || (g = new_get(s, STRETCH)) == NULL)
        return 0;
    memcpy(g->name, name_at(s, s->next), WIRE_NAME);
    s->next++;
    begin_get(s, g);
    return 1;
}

/* All stretches are there: from here on by records. */
static void end_stretches(struct station *s)
{
    if (!has_sum(lend(s, STATION_WORK, 0), s->goal.length, s->pin.sum)) {
        misfit(s);
        return;
    }
    s->work = FROM_SNAPSHOT;
    s->seq = s->pin.seq;
    s->asked = s->pin.seq;
    memcpy(s->seq_sum, s->pin.sum, WIRE_SUM);
}

/* ---- what is next ---- */

static int begin_records(struct station *s)
{
    uint8_t *work = lend(s, STATION_WORK, s->goal.length);

    if (work == NULL || s->port->load(s->port->with, work, s->length) != 0)
        return 0;
    s->work = FROM_COPY;
    s->seq = s->at.seq;
    s->asked = s->at.seq;
    memcpy(s->seq_sum, s->at.sum, WIRE_SUM);
    s->port->event(s->port->with, STATION_BEHIND, &s->goal.place,
                   s->goal.place.seq - s->at.seq);
    return 1;
}

static void begin_snapshot(struct station *s)
{
    struct station_get *g;

    s->pin = s->goal.place;
    s->pin.seq = s->goal.snap;
    s->work = MANIFEST;
    s->port->event(s->port->with, STATION_SNAPSHOT, &s->pin, s->goal.length);
    want(s, &s->pin);
    g = new_get(s, SNAPSHOT);
    g->from = s->pin.seq;
    begin_get(s, g);
}

static int records_lead(const struct station *s)
{
    return at_place(s) && same_line(&s->at, &s->goal.place) &&
           s->at.seq >= s->goal.base && s->length == s->goal.length &&
           !s->no_records;
}

/* Does what is being done still lead to the goal? */
static int leads(const struct station *s)
{
    const struct wire_place *from = s->work == FROM_COPY ? &s->at : &s->pin;

    if (!same_line(from, &s->goal.place))
        return 0;
    if (s->work == FROM_COPY || s->work == FROM_SNAPSHOT)
        return s->seq >= s->goal.base && s->asked <= s->goal.place.seq;
    return s->pin.seq >= s->goal.kept && s->pin.seq <= s->goal.snap;
}

static void begin_work(struct station *s)
{
    if (records_lead(s) && begin_records(s))
        return;
    begin_snapshot(s);
}

/* Asks for the head behind what was asked for: a broker answers in turn, so that
 * what has not come when the head does is not there. */
static void probe(struct station *s)
{
    int any = 0;

    if (s->probing)
        return;
    for (int i = 0; i < STATION_GETS; i++) {
        struct station_get *g = &s->get[i];

        if (g->kind != NONE && !g->done && g->probed < g->asked) {
            g->probed = g->asked;
            any = 1;
        }
    }
    s->probing = any;
    if (any)
        s->port->subscribe(s->port->with, "head");
}

/* Asks for as much as the window lets. */
static void pump(struct station *s)
{
    int asked = 1;

    while (asked && outstanding(s) < s->port->window) {
        asked = 0;
        for (int i = 0; i < STATION_GETS && !asked; i++) {
            struct station_get *g = &s->get[i];

            if (g->kind != NONE && !g->done && g->asked < g->count) {
                ask(s, g, g->asked++);
                asked = 1;
            }
        }
        if (!asked && s->work == STRETCHES)
            asked = ask_stretch(s);
        else if (!asked && (s->work == FROM_COPY || s->work == FROM_SNAPSHOT))
            asked = ask_record(s);
    }
    probe(s);
}

static void take_objects(struct station *s)
{
    for (int i = 0; i < STATION_GETS; i++) {
        if (!s->get[i].done || s->get[i].kind == NONE)
            continue;
        if (s->work == MANIFEST && s->get[i].kind == SNAPSHOT)
            take_manifest(s, &s->get[i]);
        else if (s->work == STRETCHES && s->get[i].kind == STRETCH)
            take_stretch(s, &s->get[i]);
    }
    if (s->work == STRETCHES && s->missing == 0)
        end_stretches(s);
}

static void go_on(struct station *s)
{
    if (s->work != IDLE && !leads(s))
        drop_work(s);
    if (s->work == IDLE)
        begin_work(s);
    take_objects(s);
    if (s->work == FROM_COPY || s->work == FROM_SNAPSHOT) {
        const uint8_t *work = lend(s, STATION_WORK, 0);

        if (!apply_records(s)) {
            misfit(s);
            return;
        }
        if (s->seq == s->goal.place.seq) {
            if (has_sum(work, s->goal.length, s->goal.place.sum))
                settle(s, work);
            else
                misfit(s);
            return;
        }
    }
    if (s->work != IDLE)
        pump(s);
}

/* ---- heads ---- */

static int has_chunk(struct station *s, const struct station_get *g,
                     uint32_t chunk)
{
    const uint8_t *bits;

    if (g->count == 0)
        return 0;
    bits = bits_of(g, lend(s, place_of(s, g), 0));
    return bits[chunk / 8] >> chunk % 8 & 1;
}

/* The head came that was asked for behind objects: are they all there? */
static int missing(struct station *s)
{
    if (!s->probing)
        return 0;
    s->probing = 0;
    for (int i = 0; i < STATION_GETS; i++) {
        const struct station_get *g = &s->get[i];

        for (uint32_t k = 0; g->kind != NONE && !g->done && k < g->probed; k++)
            if (!has_chunk(s, g, k))
                return 1;
    }
    return 0;
}

/* Makes a record of what a head carries: its head is known. */
static const uint8_t *inlined_record(struct station *s,
                                     const struct wire_head *h,
                                     struct bhtf_delta *d)
{
    static const uint8_t magic[8] = { 'B', 'H', 'T', 'F', 'd', 1, 0, 0 };
    size_t content = h->inlined_size - WIRE_CHECK;
    size_t size = BHTF_DELTA_HEAD + content + BHTF_SUM;
    uint8_t *record;

    if (size > (size_t)h->length + BHTF_DELTA_MOST ||
        (record = lend(s, STATION_PLAIN, size)) == NULL)
        return NULL;
    memcpy(record, magic, sizeof magic);
    wire_put_u32(record + 8, (uint32_t)size);
    wire_put_u32(record + 12, h->length);
    memcpy(record + 16, s->sum, WIRE_SUM);
    memcpy(record + 48, h->place.sum, WIRE_SUM);
    memcpy(record + BHTF_DELTA_HEAD, h->inlined + WIRE_CHECK, content);
    sum_of(record, BHTF_DELTA_HEAD + content, record + size - BHTF_SUM);
    return bhtf_delta_check(record, size, d) == BHTF_ACCEPTED ? record : NULL;
}

/* The head's own record goes on from the copy: other than 0 if that was all. */
static int take_inlined(struct station *s, const struct wire_head *h)
{
    const uint8_t *record;
    struct bhtf_delta d;
    uint8_t *work;

    if (h->inlined_size < WIRE_CHECK || s->length != h->length ||
        memcmp(h->inlined, s->sum, WIRE_CHECK) != 0)
        return 0;
    record = inlined_record(s, h, &d);
    if (record == NULL)
        return 0;
    drop_work(s);
    work = lend(s, STATION_WORK, h->length);
    if (work == NULL || s->port->load(s->port->with, work, s->length) != 0)
        return 0;
    write_stretches(record, work);
    if (!has_sum(work, h->length, h->place.sum))
        return 0;
    settle(s, work);
    return 1;
}

/* Is a head to be followed, beside another place? */
static int is_next(struct station *s, const struct wire_place *head,
                   const struct wire_place *own)
{
    if (wire_rivals(head, own))
        refuse(s, WIRE_OTHER_OFFICE);
    else if (head->term < own->term)
        refuse(s, WIRE_OLD_OFFICE);
    else
        return wire_order(head, own) >= 0;
    return 0;
}

/* Beside a goal that is not reached yet: of its line, and older. Of two lines the
 * last word counts, for an office may have been restored; the copy's own place
 * is what must not go back. */
static int is_older(const struct wire_place *head, const struct wire_place *goal)
{
    return same_line(head, goal) && head->seq < goal->seq;
}

/* The copy's state has the head's number, and is another. */
static int is_split(const struct station *s, const struct wire_place *head)
{
    return at_place(s) && wire_order(head, &s->at) == 0 &&
           !same_sum(head->sum, s->at.sum);
}

/* A copy that is none of the office's states is not ours to replace. */
static int may_change(const struct station *s)
{
    return s->length == 0 || at_place(s) || s->port->replace;
}

static void follow(struct station *s, const struct wire_head *h)
{
    if (s->work != IDLE && wire_order(&h->place, &s->goal.place) == 0 &&
        !same_sum(h->place.sum, s->goal.place.sum))
        drop_work(s);  /* an office that was restored: the last word counts */
    if (s->work != IDLE && h->length != s->goal.length)
        drop_work(s);  /* no office says so within a line; the new image has the
                          length that was told when it was begun */
    if (!wire_same(&h->place, &s->goal.place))
        s->retried = 0;
    s->goal = *h;
    s->goal.inlined = NULL;
    s->goal.inlined_size = 0;
    s->goal.signature = NULL;
    s->has_goal = 1;
    if (s->length == h->length && same_sum(s->sum, h->place.sum)) {
        if (s->work != IDLE)
            drop_work(s);
        if (!s->placed || !wire_same(&s->at, &h->place)) {
            settle(s, NULL);
        } else if (s->refusal != WIRE_FINE) {
            s->refusal = WIRE_FINE;
            tell(s);
        }
        return;
    }
    if (take_inlined(s, h))
        return;
    if (may_change(s))
        go_on(s);
    else
        refuse(s, WIRE_CHANGED);
}

static void on_head(struct station *s, const uint8_t *bytes, size_t size)
{
    struct wire_head h;

    if (!wire_head_get(&h, bytes, size)) {
        refuse(s, WIRE_DAMAGED);
        return;
    }
    if (s->port->verify != NULL &&
        (h.signature == NULL ||
         !s->port->verify(s->port->with, bytes, h.signature))) {
        refuse(s, WIRE_UNSIGNED);
        return;
    }
    if (h.length > s->port->longest) {
        refuse(s, WIRE_TOO_LARGE);
        return;
    }
    if ((s->placed && !is_next(s, &h.place, &s->at)) ||
        (s->has_goal && is_older(&h.place, &s->goal.place)))
        return;
    if (is_split(s, &h.place)) {
        refuse(s, WIRE_SPLIT);
        return;
    }
    if (missing(s) && wire_same(&h.place, &s->goal.place))
        refuse(s, WIRE_MISSING);
    follow(s, &h);
}

/* ---- from outside ---- */

void station_begin(struct station *s, const struct station_port *port,
                   const char *name, const struct wire_place *at,
                   uint32_t length, const uint8_t sum[WIRE_SUM])
{
    memset(s, 0, sizeof *s);
    s->port = port;
    snprintf(s->name, sizeof s->name, "%s", name);
    if (at != NULL) {
        s->at = *at;
        s->placed = 1;
    }
    s->length = length;
    if (length > 0)
        memcpy(s->sum, sum, WIRE_SUM);
}

/* What of the objects has not come, and behind it the head. */
static void ask_again(struct station *s)
{
    for (int i = 0; i < STATION_GETS; i++) {
        struct station_get *g = &s->get[i];

        for (uint32_t k = 0; g->kind != NONE && !g->done && k < g->asked; k++)
            if (!has_chunk(s, g, k))
                ask(s, g, k);
        g->probed = g->asked;
    }
    s->probing = 1;
    s->port->subscribe(s->port->with, "head");
}

/* What was the newest head on the last connection need not be it on this one:
 * an office may have been restored, and what was not committed is not kept to. */
void station_connected(struct station *s)
{
    s->has_goal = 0;
    s->retried = 0;
    s->refusal = WIRE_FINE;
    tell(s);
    want(s, s->work >= MANIFEST ? &s->pin : NULL);
    ask_again(s);
}

void station_message(struct station *s, const char *topic, const uint8_t *bytes,
                     size_t size)
{
    if (++s->heard % s->port->again == 0)
        ask_again(s);
    if (size == 0)
        return;
    if (strcmp(topic, "head") == 0)
        on_head(s, bytes, size);
    else if (s->work != IDLE)
        on_chunk(s, topic, bytes, size);
}

int station_equal(const struct station *s)
{
    return s->has_goal && at_place(s) && wire_same(&s->at, &s->goal.place);
}
