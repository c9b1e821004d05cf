/* The office's side of the protocol. */
#include "office.h"

#include "bhtf_delta.h"
#include "object.h"
#include "squash.h"
#include "sum.h"

#include <stdio.h>
#include <stdlib.h>
#include <string.h>

/* Of the broker's head, as far as it was heard. */
enum { SEEN_NONE, SEEN_RUBBISH, SEEN_HEAD };

enum { SNAPSHOT_HEAD = 48,  /* in front of a snapshot's image in the store */
       INLINE_MOST = 512 }; /* content of a record that goes with the head */

/* A station's word on terms counts up to half of them, so that a lie cannot use
 * them up. */
static const uint32_t TERM_TOLD = UINT32_MAX / 2;

static uint8_t *lend(struct office *o, unsigned place, size_t bytes)
{
    return o->port->lend(o->port->with, place, bytes);
}

static int same_line(const struct wire_place *a, const struct wire_place *b)
{
    return a->term == b->term && memcmp(a->line, b->line, WIRE_LINE) == 0;
}

static void event(struct office *o, enum office_event what, uint32_t detail)
{
    o->port->event(o->port->with, what, &o->at, detail);
}

static void stop(struct office *o, enum office_event why)
{
    if (!o->stopped)
        event(o, why, 0);
    o->stopped = 1;
}

static uint32_t newest(const struct office *o)
{
    return o->snaps > 0 ? o->snap[o->snaps - 1] : 0;
}

/* ---- the state as bytes ---- */

static uint8_t *put_numbers(uint8_t *to, const uint32_t *number, size_t count)
{
    for (size_t i = 0; i < count; i++)
        wire_put_u32(to + 4 * i, number[i]);
    return to + 4 * count;
}

static const uint8_t *get_numbers(uint32_t *number, size_t count,
                                  const uint8_t *from)
{
    for (size_t i = 0; i < count; i++)
        number[i] = wire_u32(from + 4 * i);
    return from + 4 * count;
}

static void put_place(uint8_t to[SNAPSHOT_HEAD], const struct wire_place *p)
{
    memcpy(to, p->line, WIRE_LINE);
    wire_put_u32(to + 8, p->term);
    wire_put_u32(to + 12, p->seq);
    memcpy(to + 16, p->sum, WIRE_SUM);
}

static void get_place(struct wire_place *p, const uint8_t from[SNAPSHOT_HEAD])
{
    memcpy(p->line, from, WIRE_LINE);
    p->term = wire_u32(from + 8);
    p->seq = wire_u32(from + 12);
    memcpy(p->sum, from + 16, WIRE_SUM);
}

static void put_state(const struct office *o, uint8_t state[OFFICE_STATE])
{
    const uint32_t weight[2] = { (uint32_t)(o->weight >> 32),
                                 (uint32_t)o->weight };
    uint8_t sum[WIRE_SUM], *at = state + SNAPSHOT_HEAD;

    put_place(state, &o->at);
    at = put_numbers(at, &o->length, 1);
    at = put_numbers(at, &o->base, 1);
    at = put_numbers(at, &o->snaps, 1);
    at = put_numbers(at, o->snap, OFFICE_SNAPS);
    at = put_numbers(at, &o->marks, 1);
    at = put_numbers(at, o->mark, OFFICE_MARKS);
    at = put_numbers(at, weight, 2);
    sum_of(state, (size_t)(at - state), sum);
    memcpy(at, sum, WIRE_CHECK);
}

static int get_state(struct office *o, const uint8_t state[OFFICE_STATE])
{
    const uint8_t *at = state + SNAPSHOT_HEAD;
    uint8_t sum[WIRE_SUM];
    uint32_t weight[2];

    sum_of(state, OFFICE_STATE - WIRE_CHECK, sum);
    if (memcmp(sum, state + OFFICE_STATE - WIRE_CHECK, WIRE_CHECK) != 0)
        return 0;
    get_place(&o->at, state);
    at = get_numbers(&o->length, 1, at);
    at = get_numbers(&o->base, 1, at);
    at = get_numbers(&o->snaps, 1, at);
    at = get_numbers(o->snap, OFFICE_SNAPS, at);
    at = get_numbers(&o->marks, 1, at);
    at = get_numbers(o->mark, OFFICE_MARKS, at);
    get_numbers(weight, 2, at);
    o->weight = (uint64_t)weight[0] << 32 | weight[1];
    return o->snaps > 0 && o->snaps <= OFFICE_SNAPS && o->marks > 0 &&
           o->marks <= OFFICE_MARKS;
}

static int save(struct office *o, const uint8_t *image)
{
    uint8_t state[OFFICE_STATE];

    put_state(o, state);
    return o->port->save(o->port->with, state, image, o->length);
}

/* ---- names in the store: the term is part of them, so that what an older line
 * left there is never taken for this one's ---- */

static void record_name(const struct office *o, char name[OFFICE_NAME],
                        uint32_t level, uint32_t from)
{
    snprintf(name, OFFICE_NAME, "%lu-r-%lu-%lu", (unsigned long)o->at.term,
             (unsigned long)level, (unsigned long)from);
}

static void snapshot_name(const struct office *o, char name[OFFICE_NAME],
                          uint32_t seq)
{
    snprintf(name, OFFICE_NAME, "%lu-s-%lu", (unsigned long)o->at.term,
             (unsigned long)seq);
}

static size_t record_size(struct office *o, uint32_t level, uint32_t from)
{
    char name[OFFICE_NAME];

    record_name(o, name, level, from);
    return o->port->get(o->port->with, name, NULL, 0);
}

int office_needs(const struct office *o, const char *name)
{
    unsigned long term, level, from, seq;
    char own[OFFICE_NAME];

    if (!o->known)
        return 1;
    if (sscanf(name, "%lu-r-%lu-%lu", &term, &level, &from) == 3) {
        record_name(o, own, (uint32_t)level, (uint32_t)from);
        return strcmp(own, name) == 0 && from >= o->base &&
               from + level <= o->at.seq;
    }
    if (sscanf(name, "%lu-s-%lu", &term, &seq) != 2)
        return 1;
    snapshot_name(o, own, (uint32_t)seq);
    for (uint32_t i = 0; i < o->snaps; i++)
        if (strcmp(own, name) == 0 && o->snap[i] == seq)
            return 1;
    return 0;
}

/* ---- objects in chunks ---- */

/* What an object's topics are made of. */
struct title {
    enum { RECORD, MANIFEST, STRETCH } kind;
    uint32_t level, from;
    const uint8_t *name;
};

static void topic_of(const struct title *t, uint32_t chunk,
                     char topic[WIRE_TOPIC])
{
    if (t->kind == RECORD)
        wire_topic_record(topic, t->level, t->from, chunk);
    else if (t->kind == MANIFEST)
        wire_topic_manifest(topic, t->from, chunk);
    else
        wire_topic_stretch(topic, t->name, chunk);
}

static uint32_t chunks_of(const struct office *o, size_t size)
{
    return (uint32_t)((size + o->port->chunk - 1) / o->port->chunk);
}

static void publish_object(struct office *o, const struct title *t,
                           const uint8_t *object, size_t size)
{
    uint8_t sum[WIRE_SUM];
    struct wire_chunk c = { 0, chunks_of(o, size), sum, object, 0 };
    uint8_t *message = lend(o, OFFICE_CHUNK, WIRE_CHUNK_HEAD + o->port->chunk +
                                                 WIRE_CHECK);
    char topic[WIRE_TOPIC];

    sum_of(object, size, sum);
    for (; c.number < c.count; c.number++, c.data += c.size) {
        size_t left = size - (size_t)(c.data - object);

        c.size = left < o->port->chunk ? left : o->port->chunk;
        topic_of(t, c.number, topic);
        o->port->publish(o->port->with, topic, message,
                         wire_chunk_put(message, &c));
    }
}

static void delete_object(struct office *o, const struct title *t, size_t size)
{
    char topic[WIRE_TOPIC];

    for (uint32_t i = 0; i < chunks_of(o, size); i++) {
        topic_of(t, i, topic);
        o->port->publish(o->port->with, topic, NULL, 0);
    }
}

/* ---- records ---- */

static size_t room(const struct office *o)
{
    return (size_t)o->length + BHTF_DELTA_MOST;
}

/* A record's object from the store; 0 if it is not there, or is longer than one
 * can be. */
static size_t get_record(struct office *o, uint32_t level, uint32_t from)
{
    uint8_t *object = lend(o, OFFICE_OBJECT, OBJECT_ROOM(room(o)));
    char name[OFFICE_NAME];
    size_t size;

    record_name(o, name, level, from);
    size = o->port->get(o->port->with, name, object, OBJECT_ROOM(room(o)));
    return size <= OBJECT_ROOM(room(o)) ? size : 0;
}

/* The same unpacked and checked, in OFFICE_RECORD. */
static int get_plain(struct office *o, uint32_t level, uint32_t from,
                     struct bhtf_delta *d)
{
    size_t size = get_record(o, level, from), plain;
    uint8_t *record = lend(o, OFFICE_RECORD, room(o));

    return size > 0 &&
           object_unpack(record, room(o), &plain, lend(o, OFFICE_OBJECT, 0),
                         size) &&
           bhtf_delta_check(record, plain, d) == BHTF_ACCEPTED;
}

/* Packs OFFICE_RECORD into the store. */
static int put_record(struct office *o, uint32_t level, uint32_t from,
                      size_t size)
{
    uint8_t *object = lend(o, OFFICE_OBJECT, OBJECT_ROOM(room(o)));
    char name[OFFICE_NAME];

    size = object_pack(object, lend(o, OFFICE_RECORD, 0), size);
    record_name(o, name, level, from);
    return o->port->put(o->port->with, name, object, size);
}

static void publish_record(struct office *o, uint32_t level, uint32_t from)
{
    const struct title t = { RECORD, level, from, NULL };
    size_t size = get_record(o, level, from);

    if (size > 0)
        publish_object(o, &t, lend(o, OFFICE_OBJECT, 0), size);
    else
        o->rebase = 1;
}

/* The first record of a level that begins at a state or behind it. */
static uint32_t first_of(uint32_t level, uint32_t from)
{
    return (from + level - 1) / level * level;
}

/* Adds the stretches of OFFICE_RECORD to the pairs. */
static int collect(struct office *o, size_t *count)
{
    struct bhtf_stretch part;
    struct squash_pair *pair;

    memset(&part, 0, sizeof part);
    while (bhtf_delta_next(lend(o, OFFICE_RECORD, 0), &part)) {
        pair = (void *)lend(o, OFFICE_PAIRS, (*count + 1) * sizeof *pair);
        if (pair == NULL)
            return 0;
        pair[*count].at = part.offset;
        pair[*count].size = part.length;
        (*count)++;
    }
    return 1;
}

/* Makes the record of a level that ends with the shadow. */
static int squash(struct office *o, int k)
{
    uint32_t level = wire_level[k], low = wire_level[k - 1];
    uint32_t first = o->at.seq - level;
    uint8_t before[WIRE_SUM];
    struct squash_pair *pair;
    struct bhtf_delta d;
    size_t count = 0, size;

    for (uint32_t from = first; from < o->at.seq; from += low) {
        if (!get_plain(o, low, from, &d) || !collect(o, &count))
            return -1;
        if (from == first)
            memcpy(before, d.before, WIRE_SUM);
    }
    pair = (void *)lend(o, OFFICE_PAIRS, 0);
    count = squash_pairs(pair, count);
    size = squash_record(lend(o, OFFICE_RECORD, room(o)), pair, count,
                         lend(o, OFFICE_SHADOW, 0), o->length, before,
                         o->at.sum);
    return put_record(o, level, first, size);
}

static int make_squashes(struct office *o)
{
    for (int k = 1; k < WIRE_LEVELS; k++)
        if (o->at.seq % wire_level[k] == 0 &&
            o->at.seq >= o->base + wire_level[k] && squash(o, k) != 0)
            return -1;
    return 0;
}

/* What a station fetches that goes from one state to the last. */
static uint64_t path_weight(struct office *o, uint32_t from)
{
    uint64_t weight = 0;

    while (from < o->at.seq) {
        uint32_t level = wire_level[wire_step(from, o->at.seq)];

        weight += record_size(o, level, from);
        from += level;
    }
    return weight;
}

/* ---- snapshots ---- */

static uint32_t stretches(const struct office *o)
{
    return wire_stretches(o->length, o->port->stretch);
}

static uint32_t stretch_size(const struct office *o, uint32_t i)
{
    uint32_t left = o->length - i * o->port->stretch;

    return left < o->port->stretch ? left : o->port->stretch;
}

static const uint8_t *name_at(struct office *o, uint32_t slot, uint32_t i)
{
    return lend(o, OFFICE_NAMES + slot, 0) + (size_t)i * WIRE_NAME;
}

static int all_zero(const uint8_t *bytes, size_t size)
{
    return bytes[0] == 0 && memcmp(bytes, bytes + 1, size - 1) == 0;
}

/* Names of an image's stretches, zeros for those that are all zero. */
static int make_names(struct office *o, uint32_t slot, const uint8_t *image)
{
    uint8_t *names = lend(o, OFFICE_NAMES + slot,
                          (size_t)stretches(o) * WIRE_NAME);
    uint8_t sum[WIRE_SUM];

    if (names == NULL)
        return -1;
    for (uint32_t i = 0; i < stretches(o); i++) {
        const uint8_t *at = image + (size_t)i * o->port->stretch;

        memset(sum, 0, sizeof sum);
        if (!all_zero(at, stretch_size(o, i)))
            sum_of(at, stretch_size(o, i), sum);
        memcpy(names + (size_t)i * WIRE_NAME, sum, WIRE_NAME);
    }
    return 0;
}

static int is_zero(const uint8_t *name)
{
    return all_zero(name, WIRE_NAME);
}

/* A snapshot from the store into OFFICE_IMAGE: its place, if it is whole. */
static int get_snapshot(struct office *o, uint32_t seq, struct wire_place *p)
{
    size_t size = SNAPSHOT_HEAD + (size_t)o->length;
    uint8_t *bytes = lend(o, OFFICE_IMAGE, size), sum[WIRE_SUM];
    char name[OFFICE_NAME];

    snapshot_name(o, name, seq);
    if (bytes == NULL || o->port->get(o->port->with, name, bytes, size) != size)
        return 0;
    get_place(p, bytes);
    sum_of(bytes + SNAPSHOT_HEAD, o->length, sum);
    return same_line(p, &o->at) && p->seq == seq &&
           memcmp(sum, p->sum, WIRE_SUM) == 0;
}

static size_t pack_stretch(struct office *o, const uint8_t *image, uint32_t i)
{
    uint8_t *object = lend(o, OFFICE_OBJECT, OBJECT_ROOM(o->port->stretch));

    return object_pack(object, image + (size_t)i * o->port->stretch,
                       stretch_size(o, i));
}

/* Packs a snapshot's manifest into OFFICE_OBJECT. */
static size_t pack_manifest(struct office *o, uint32_t slot,
                            const struct wire_place *place)
{
    struct wire_manifest m = { *place, o->length, o->port->stretch,
                               stretches(o), name_at(o, slot, 0) };
    size_t size = WIRE_MANIFEST + (size_t)m.count * WIRE_NAME;
    uint8_t *plain = lend(o, OFFICE_RECORD, size);
    uint8_t *object = lend(o, OFFICE_OBJECT, OBJECT_ROOM(size));

    return object_pack(object, plain, wire_manifest_put(plain, &m));
}

/* Stands the name in one of the snapshots of these slots? `o` says how many
 * stretches they have. */
static int is_named(struct office *o, const uint8_t *name, uint32_t from,
                    uint32_t to)
{
    for (uint32_t slot = from; slot < to; slot++)
        for (uint32_t i = 0; i < stretches(o); i++)
            if (memcmp(name_at(o, slot, i), name, WIRE_NAME) == 0)
                return 1;
    return 0;
}

/* Publishes a snapshot: of the stretches those that the slots before it do not
 * have, or all of them. */
static void publish_snapshot(struct office *o, uint32_t slot, uint32_t seq,
                             int all)
{
    struct title t = { STRETCH, 0, 0, NULL };
    struct wire_place place;
    const uint8_t *image;

    if (!get_snapshot(o, seq, &place)) {
        o->rebase = 1;
        return;
    }
    image = lend(o, OFFICE_IMAGE, 0) + SNAPSHOT_HEAD;
    for (uint32_t i = 0; i < stretches(o); i++) {
        size_t size;

        t.name = name_at(o, slot, i);
        if (is_zero(t.name) || (!all && is_named(o, t.name, 0, slot)))
            continue;
        size = pack_stretch(o, image, i);
        publish_object(o, &t, lend(o, OFFICE_OBJECT, 0), size);
    }
    t.kind = MANIFEST;
    t.from = seq;
    publish_object(o, &t, lend(o, OFFICE_OBJECT, 0),
                   pack_manifest(o, slot, &place));
}

/* Deletes the topics of the snapshot in a slot, but for stretches that the slots
 * of `now` have from `from` up to `to`. The manifest of state 0 is that of each
 * line's first snapshot: the next line writes over it. */
static void delete_snapshot(struct office *o, uint32_t slot, uint32_t seq,
                            struct office *now, uint32_t from, uint32_t to)
{
    struct title t = { STRETCH, 0, 0, NULL };
    struct wire_place place;
    const uint8_t *image;
    char name[OFFICE_NAME];

    if (get_snapshot(o, seq, &place)) {
        image = lend(o, OFFICE_IMAGE, 0) + SNAPSHOT_HEAD;
        for (uint32_t i = 0; i < stretches(o); i++) {
            t.name = name_at(o, slot, i);
            if (!is_zero(t.name) && !is_named(now, t.name, from, to))
                delete_object(o, &t, pack_stretch(o, image, i));
        }
        t.kind = MANIFEST;
        t.from = seq;
        if (seq != 0)
            delete_object(o, &t, pack_manifest(o, slot, &place));
    }
    snapshot_name(o, name, seq);
    o->port->drop(o->port->with, name);
}

/* The snapshot of the shadow: into the store, its names into a slot, its weight
 * taken. */
static int make_snapshot(struct office *o, uint32_t slot)
{
    const uint8_t *shadow = lend(o, OFFICE_SHADOW, 0);
    uint8_t *bytes = lend(o, OFFICE_IMAGE, SNAPSHOT_HEAD + (size_t)o->length);
    char name[OFFICE_NAME];

    if (bytes == NULL || make_names(o, slot, shadow) != 0)
        return -1;
    put_place(bytes, &o->at);
    memcpy(bytes + SNAPSHOT_HEAD, shadow, o->length);
    o->weight = pack_manifest(o, slot, &o->at);
    for (uint32_t i = 0; i < stretches(o); i++)
        if (!is_zero(name_at(o, slot, i)))
            o->weight += pack_stretch(o, shadow, i);
    snapshot_name(o, name, o->at.seq);
    return o->port->put(o->port->with, name, bytes,
                        SNAPSHOT_HEAD + (size_t)o->length);
}

/* ---- head ---- */

/* The last record without its head, if it is short enough to go along. */
static size_t inlined(struct office *o, uint8_t *to)
{
    struct bhtf_delta d;
    size_t content;

    if (o->at.seq == o->base || !get_plain(o, 1, o->at.seq - 1, &d))
        return 0;
    content = d.size - BHTF_DELTA_HEAD - BHTF_SUM;
    if (content > INLINE_MOST || WIRE_CHECK + content > o->port->chunk ||
        memcmp(d.after, o->at.sum, WIRE_SUM) != 0)
        return 0;
    memcpy(to, d.before, WIRE_CHECK);
    memcpy(to + WIRE_CHECK, lend(o, OFFICE_RECORD, 0) + BHTF_DELTA_HEAD,
           content);
    return WIRE_CHECK + content;
}

static void publish_head(struct office *o)
{
    size_t most = WIRE_HEAD + o->port->chunk + WIRE_CHECK + WIRE_SIGNATURE;
    uint8_t *message = lend(o, OFFICE_CHUNK, most + o->port->chunk);
    uint8_t signature[WIRE_SIGNATURE], *record = message + most;
    struct wire_head h = { o->at, o->length, newest(o), o->snap[0], o->base,
                           record, 0, NULL };

    h.inlined_size = inlined(o, record);
    if (o->port->sign != NULL) {
        memset(signature, 0, sizeof signature);
        h.signature = signature;
        wire_head_put(message, &h);
        o->port->sign(o->port->with, message, signature);
    }
    o->port->publish(o->port->with, "head", message,
                     wire_head_put(message, &h));
}

/* ---- publishing what the broker lacks ---- */

static void publish_records(struct office *o, uint32_t behind)
{
    for (int k = 0; k < WIRE_LEVELS; k++) {
        uint32_t level = wire_level[k];

        for (uint32_t from = first_of(level, o->base);
             from + level <= o->at.seq; from += level)
            if (from + level > behind)
                publish_record(o, level, from);
    }
}

/* Everything behind a state; the head is last. */
static void publish_behind(struct office *o, uint32_t seq)
{
    for (uint32_t i = 0; i < o->snaps; i++)
        if (seq == 0 || o->snap[i] > seq)
            publish_snapshot(o, i, o->snap[i], seq == 0);
    publish_records(o, seq);
    publish_head(o);
    event(o, OFFICE_REPEATED, seq);
}

/* ---- trimming: behind the head that no longer tells of it ---- */

static void delete_records(struct office *o, uint32_t from_base,
                           uint32_t to_base)
{
    char name[OFFICE_NAME];

    for (int k = 0; k < WIRE_LEVELS; k++) {
        struct title t = { RECORD, wire_level[k], 0, NULL };

        for (t.from = first_of(t.level, from_base);
             t.from < to_base && t.from + t.level <= o->at.seq;
             t.from += t.level) {
            delete_object(o, &t, record_size(o, t.level, t.from));
            record_name(o, name, t.level, t.from);
            o->port->drop(o->port->with, name);
        }
    }
}

/* How many of the oldest snapshots nobody needs: all but two, unless a station
 * is fetching one of them, and there is room. */
static uint32_t needless(const struct office *o)
{
    uint32_t first = o->snaps > 2 ? o->snaps - 2 : 0;

    for (unsigned i = 0; i < o->wants; i++)
        while (first > 0 && o->snap[first - 1] >= o->want[i].seq)
            first--;
    return o->snaps == OFFICE_SNAPS && first == 0 ? 1 : first;
}

/* Records are kept until they outweigh a snapshot. */
static uint32_t next_base(struct office *o, uint32_t kept)
{
    for (uint32_t i = o->marks; i-- > 0;)
        if (o->mark[i] >= o->base && o->mark[i] <= kept &&
            path_weight(o, o->mark[i]) >= o->weight)
            return o->mark[i];
    return o->base;
}

static void shift(uint32_t *list, uint32_t *count, uint32_t by)
{
    memmove(list, list + by, (*count - by) * sizeof *list);
    *count -= by;
}

/* Takes the names of the slots behind the first `by` to the front. */
static void shift_names(struct office *o, uint32_t by)
{
    for (uint32_t slot = by; by > 0 && slot < o->snaps + by; slot++) {
        uint8_t *to = lend(o, OFFICE_NAMES + slot - by,
                           (size_t)stretches(o) * WIRE_NAME);

        memcpy(to, name_at(o, slot, 0), (size_t)stretches(o) * WIRE_NAME);
    }
}

/* ---- a new line ---- */

static uint32_t highest_term(const struct office *o)
{
    uint32_t term = o->known ? o->at.term : 0;

    if (o->seen == SEEN_HEAD && o->head.term > term)
        term = o->head.term;
    return o->elsewhere > term ? o->elsewhere : term;
}

/* What the old line had at the broker is deleted behind the new head; its new
 * stretches stand in the spare slot. */
static void delete_line(struct office *o, struct office *old)
{
    if (!old->known)
        return;
    delete_records(old, old->base, old->at.seq);
    for (uint32_t i = 0; i < old->snaps; i++)
        delete_snapshot(old, i, old->snap[i], o, OFFICE_SNAPS,
                        OFFICE_SNAPS + 1);
}

static void new_line(struct office *o, const uint8_t *image, uint32_t length,
                     enum office_reason why)
{
    struct office old = *o;
    uint8_t *shadow;

    if (highest_term(o) == UINT32_MAX) {
        stop(o, OFFICE_TROUBLE);
        return;
    }
    o->at.term = highest_term(o) + 1;
    o->port->random(o->port->with, o->at.line, WIRE_LINE);
    o->at.seq = 0;
    o->length = length;
    shadow = lend(o, OFFICE_SHADOW, length);
    if (shadow == NULL) {
        stop(o, OFFICE_TROUBLE);
        return;
    }
    if (image != shadow)
        memcpy(shadow, image, length);
    sum_of(shadow, length, o->at.sum);
    o->base = 0;
    o->snaps = o->marks = 1;
    o->snap[0] = o->mark[0] = 0;
    o->wants = 0;
    o->rebase = 0;
    if (make_snapshot(o, OFFICE_SNAPS) != 0 || save(o, shadow) != 0) {
        stop(o, OFFICE_TROUBLE);
        return;
    }
    o->known = 1;
    o->begun = 1;
    o->take_over = 0;  /* once: two offices that were told so must not go on */
    o->ahead = 0;
    o->came_back = 0;
    event(o, OFFICE_NEW_LINE, why);
    publish_snapshot(o, OFFICE_SNAPS, 0, 1);
    publish_head(o);
    delete_line(o, &old);
    memcpy(lend(o, OFFICE_NAMES, (size_t)stretches(o) * WIRE_NAME),
           name_at(o, OFFICE_SNAPS, 0), (size_t)stretches(o) * WIRE_NAME);
}

/* ---- a new state ---- */

static int make_record(struct office *o, const uint8_t *image)
{
    uint8_t *record = lend(o, OFFICE_RECORD, room(o));
    size_t size;

    if (record == NULL ||
        o->port->make(o->port->with, lend(o, OFFICE_SHADOW, 0), o->at.sum,
                      image, o->length, record, room(o), &size) != 0)
        return -1;
    return put_record(o, 1, o->at.seq, size);
}

/* Is it time for a snapshot? When records weigh a quarter of one; looked at
 * each sixteen states, and when one record does so alone. */
static int snapshot_due(struct office *o)
{
    if (o->at.seq % 16 != 0 &&
        4 * (uint64_t)record_size(o, 1, o->at.seq - 1) < o->weight)
        return 0;
    return 4 * path_weight(o, newest(o)) > o->weight;
}

/* A snapshot of this state into the next slot; what it makes needless is told. */
static int add_snapshot(struct office *o, uint32_t *needless_snaps,
                        uint32_t *base)
{
    if (make_snapshot(o, o->snaps) != 0)
        return -1;
    o->snap[o->snaps++] = o->at.seq;
    if (o->marks == OFFICE_MARKS)
        shift(o->mark, &o->marks, 1);
    o->mark[o->marks++] = o->at.seq;
    *needless_snaps = needless(o);
    *base = next_base(o, o->snap[*needless_snaps]);
    event(o, OFFICE_NEW_SNAPSHOT, (uint32_t)o->weight);
    return 0;
}

static void publish_state(struct office *o, int with_snapshot)
{
    for (int k = 0; k < WIRE_LEVELS; k++)
        if (o->at.seq % wire_level[k] == 0 &&
            o->at.seq >= o->base + wire_level[k])
            publish_record(o, wire_level[k], o->at.seq - wire_level[k]);
    if (with_snapshot)
        publish_snapshot(o, o->snaps - 1, newest(o), 0);
}

/* The store first, then the broker: content, head, and behind it what is no
 * longer needed. */
static void next_state(struct office *o, const uint8_t *image)
{
    uint8_t *shadow = lend(o, OFFICE_SHADOW, 0);
    uint32_t dropped = 0, base = o->base, was = o->base;
    struct office kept;
    int due = 0;

    if (make_record(o, image) != 0) {
        stop(o, OFFICE_TROUBLE);
        return;
    }
    memcpy(shadow, image, o->length);
    o->at.seq++;
    sum_of(shadow, o->length, o->at.sum);
    if (make_squashes(o) != 0)
        o->rebase = 1;
    else if (snapshot_due(o))
        due = add_snapshot(o, &dropped, &base) == 0 ? 1 : -1;
    kept = *o;
    shift(kept.snap, &kept.snaps, dropped);
    kept.base = base;
    if (due < 0 || save(&kept, shadow) != 0) {
        stop(o, OFFICE_TROUBLE);
        return;
    }
    event(o, OFFICE_MADE, (uint32_t)record_size(o, 1, o->at.seq - 1));
    publish_state(o, due);
    publish_head(&kept);
    for (uint32_t i = 0; i < dropped; i++)
        delete_snapshot(o, i, o->snap[i], o, dropped, o->snaps);
    delete_records(o, was, base);
    *o = kept;
    shift_names(o, dropped);
}

/* Something in the store is lost: a snapshot of this state, and nothing older
 * is told of any more. */
static void rebase(struct office *o)
{
    o->rebase = 0;
    o->snaps = o->marks = 0;
    if (make_snapshot(o, 0) != 0) {
        stop(o, OFFICE_TROUBLE);
        return;
    }
    o->snap[o->snaps++] = o->mark[o->marks++] = o->base = o->at.seq;
    if (save(o, lend(o, OFFICE_SHADOW, 0)) != 0) {
        stop(o, OFFICE_TROUBLE);
        return;
    }
    event(o, OFFICE_NEW_SNAPSHOT, (uint32_t)o->weight);
    publish_behind(o, 0);
}

/* ---- what the broker has ---- */

/* Beside the head that the broker had: other than 0 if it is another office's
 * that must not be replaced. */
static int judge_head(struct office *o)
{
    if (o->seen != SEEN_HEAD)
        return o->elsewhere > 0 && !o->known && !o->take_over;
    if (o->known && same_line(&o->head, &o->at)) {
        if (wire_order(&o->head, &o->at) > 0 ||
            (o->head.seq == o->at.seq &&
             memcmp(o->head.sum, o->at.sum, WIRE_SUM) != 0))
            o->ahead = 1;
        return 0;
    }
    return (!o->known || o->head.term >= o->at.term) && !o->take_over;
}

static int must_take_over(const struct office *o)
{
    return o->take_over && o->known &&
           (o->elsewhere >= o->at.term ||
            (o->seen == SEEN_HEAD && !same_line(&o->head, &o->at) &&
             o->head.term >= o->at.term));
}

/* The broker has said what it has. */
static void become_ready(struct office *o)
{
    const uint8_t *shadow = lend(o, OFFICE_SHADOW, 0);

    if (judge_head(o)) {
        stop(o, OFFICE_RIVAL);
        return;
    }
    o->ready = 1;
    event(o, OFFICE_READY, 0);
    if (!o->known)
        return;
    if (o->ahead)
        new_line(o, shadow, o->length, OFFICE_AHEAD);
    else if (must_take_over(o))
        new_line(o, shadow, o->length, OFFICE_TAKE_OVER);
    else if (o->rebase)
        rebase(o);
    else if (o->seen != SEEN_HEAD || !same_line(&o->head, &o->at) ||
             o->repaired)
        publish_behind(o, 0);
    else if (o->head.seq < o->at.seq)
        publish_behind(o, o->head.seq);
    else if (o->port->sign != NULL && !o->is_signed)
        publish_head(o);
    else
        o->came_back = o->at.seq + 1;
}

/* ---- messages ---- */

/* A head came while this office publishes: its own, or somebody wrote it. */
static void on_head_ready(struct office *o, const struct wire_place *p)
{
    if (!same_line(p, &o->at)) {
        if (p->term >= o->at.term)
            stop(o, OFFICE_RIVAL);
        else
            publish_behind(o, 0);
        return;
    }
    if (wire_order(p, &o->at) > 0 ||
        (p->seq == o->at.seq && memcmp(p->sum, o->at.sum, WIRE_SUM) != 0)) {
        new_line(o, lend(o, OFFICE_SHADOW, 0), o->length, OFFICE_AHEAD);
        return;
    }
    if (p->seq == o->at.seq && o->came_back != p->seq + 1) {
        o->came_back = p->seq + 1;
        event(o, OFFICE_PUBLISHED, 0);
    } else if (p->seq < o->at.seq && o->came_back == o->at.seq + 1) {
        publish_head(o);  /* an old one in its place */
        event(o, OFFICE_REPEATED, o->at.seq);
    }
}

static void on_head(struct office *o, const uint8_t *bytes, size_t size)
{
    struct wire_head h;
    int whole = wire_head_get(&h, bytes, size);

    if (!whole && size == 0 && !o->ready)
        return;
    o->seen = whole ? SEEN_HEAD : SEEN_RUBBISH;
    if (whole)
        o->head = h.place;
    o->is_signed = whole && h.signature != NULL;
    if (!o->ready || !o->known)
        return;
    if (whole)
        on_head_ready(o, &h.place);
    else
        publish_behind(o, 0);
}

/* A station lacks something: all is published again, once for each state and
 * connection, so that a station that is wrong does not keep the office busy. */
static void repair(struct office *o)
{
    if (o->repaired || !o->known)
        return;
    o->repaired = 1;
    if (o->ready)
        publish_behind(o, 0);
}

static void on_at(struct office *o, const uint8_t *bytes, size_t size)
{
    struct wire_at at;

    if (!wire_at_get(&at, bytes, size))
        return;
    if (at.refusal == WIRE_DAMAGED || at.refusal == WIRE_UNFIT ||
        at.refusal == WIRE_MISSING)
        repair(o);
    if (at.place.term == 0)
        return;  /* it has no copy yet */
    if (!o->known || !same_line(&at.place, &o->at)) {
        if (o->known && at.place.term < o->at.term)
            return;
        if (at.place.term > o->elsewhere && at.place.term <= TERM_TOLD) {
            o->elsewhere = at.place.term;
            event(o, OFFICE_ELSEWHERE, at.place.term);
        }
        return;
    }
    if (o->begun)
        return;  /* nobody can be ahead of it: the station lies */
    if (at.place.seq > o->at.seq ||
        (at.place.seq == o->at.seq && at.refusal == WIRE_SPLIT)) {
        if (o->ready)
            new_line(o, lend(o, OFFICE_SHADOW, 0), o->length, OFFICE_AHEAD);
        else
            o->ahead = 1;
    }
}

static void on_want(struct office *o, const char *station, const uint8_t *bytes,
                    size_t size)
{
    struct wire_place p;
    int wants = wire_want_get(&p, bytes, size) && o->known &&
                same_line(&p, &o->at);
    unsigned i = 0;

    if (!wire_word(station))
        return;
    while (i < o->wants && strcmp(o->want[i].name, station) != 0)
        i++;
    if (wants && i < OFFICE_WANTS) {
        snprintf(o->want[i].name, sizeof o->want[i].name, "%s", station);
        o->want[i].seq = p.seq;
        if (i == o->wants)
            o->wants++;
    } else if (!wants && i < o->wants) {
        o->want[i] = o->want[--o->wants];
    }
}

/* Its own message came back: everything that the broker had came before it. */
static void on_echo(struct office *o, const uint8_t *bytes, size_t size)
{
    if (!o->ready && size == 1 + sizeof o->nonce && bytes[0] == '1' &&
        memcmp(bytes + 1, o->nonce, sizeof o->nonce) == 0)
        become_ready(o);
}

/* ---- from outside ---- */

/* Is everything there that the head tells of? */
static int store_whole(struct office *o)
{
    struct wire_place place;

    for (uint32_t i = 0; i < o->snaps; i++)
        if (!get_snapshot(o, o->snap[i], &place) ||
            make_names(o, i, lend(o, OFFICE_IMAGE, 0) + SNAPSHOT_HEAD) != 0)
            return 0;
    for (int k = 0; k < WIRE_LEVELS; k++) {
        uint32_t level = wire_level[k];

        for (uint32_t from = first_of(level, o->base);
             from + level <= o->at.seq; from += level)
            if (record_size(o, level, from) == 0)
                return 0;
    }
    return 1;
}

void office_begin(struct office *o, const struct office_port *port,
                  const uint8_t *state, uint32_t length)
{
    uint8_t sum[WIRE_SUM];

    memset(o, 0, sizeof *o);
    o->port = port;
    o->take_over = port->take_over;
    if (state == NULL || !get_state(o, state) || o->length != length)
        return;
    sum_of(lend(o, OFFICE_SHADOW, 0), length, sum);
    o->known = memcmp(sum, o->at.sum, WIRE_SUM) == 0;
    if (o->known)
        o->rebase = !store_whole(o);
}

static void say_up(struct office *o)
{
    uint8_t up[1 + sizeof o->nonce] = { '1' };

    memcpy(up + 1, o->nonce, sizeof o->nonce);
    o->port->publish(o->port->with, "up/office", up, sizeof up);
}

/* Words of many stations fill the broker's queue, and what it drops then may be
 * the office's own message, or its head, on the way back. */
static void ask_again(struct office *o)
{
    o->port->subscribe(o->port->with, "head");
    if (!o->ready)
        say_up(o);
}

void office_connected(struct office *o)
{
    o->ready = 0;
    o->seen = SEEN_NONE;
    o->begun = 0;
    o->ahead = 0;
    o->elsewhere = 0;
    o->repaired = 0;
    o->came_back = 0;
    o->wants = 0;
    o->port->random(o->port->with, o->nonce, sizeof o->nonce);
    o->port->subscribe(o->port->with, "head");
    o->port->subscribe(o->port->with, "at/+");
    o->port->subscribe(o->port->with, "want/+");
    o->port->subscribe(o->port->with, "up/office");
    say_up(o);
}

void office_message(struct office *o, const char *topic, const uint8_t *bytes,
                    size_t size)
{
    if (o->stopped)
        return;
    if (++o->heard % o->port->again == 0)
        ask_again(o);
    if (strcmp(topic, "head") == 0)
        on_head(o, bytes, size);
    else if (strncmp(topic, "at/", 3) == 0)
        on_at(o, bytes, size);
    else if (strncmp(topic, "want/", 5) == 0)
        on_want(o, topic + 5, bytes, size);
    else if (strcmp(topic, "up/office") == 0)
        on_echo(o, bytes, size);
}

void office_change(struct office *o, const uint8_t *image, uint32_t length)
{
    uint8_t sum[WIRE_SUM];

    if (!o->ready || o->stopped)
        return;
    if (!o->known) {
        new_line(o, image, length, o->seen == SEEN_HEAD || o->elsewhere > 0
                                       ? OFFICE_TAKE_OVER : OFFICE_FIRST);
        return;
    }
    if (length != o->length) {
        new_line(o, image, length, OFFICE_LENGTH);
        return;
    }
    sum_of(image, length, sum);
    if (memcmp(sum, o->at.sum, WIRE_SUM) == 0)
        return;
    o->repaired = 0;
    if (o->at.seq == UINT32_MAX)
        new_line(o, image, length, OFFICE_FULL);
    else
        next_state(o, image);
    if (o->rebase && !o->stopped)
        rebase(o);
}

int office_published(const struct office *o)
{
    return o->ready && o->known && !o->stopped &&
           o->came_back == o->at.seq + 1;
}
