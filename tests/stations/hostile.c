/* A station and an office among messages that lie. Each has a right check, as
 * whoever may write at a broker can make it; lengths, counts and numbers in it
 * are wrong. Memory is lent to the byte, so that sanitizers see each one beyond.
 *     hostile                    names of the cases
 *     hostile CASE               runs one: 0 if it went well
 *     hostile random TURNS SEED  lies by chance, told to a station and an office
 * No message may lead outside of memory, or to more memory or disk than an image
 * of the longest length needs, whatever numbers it has. */
#include "bhtf_delta.h"
#include "object.h"
#include "office.h"
#include "squash.h"
#include "station.h"
#include "sum.h"

#include <stdio.h>
#include <stdlib.h>
#include <string.h>

enum { LENGTH = 1000, LONGEST = 8192, ASKED = 64,
       ROOM = 4 * LONGEST,       /* more than any piece of memory needs */
       ENOUGH = 1 << 16 };       /* bytes of the longest message that is made */

static int failures;

static void that(int good, const char *what)
{
    if (good)
        return;
    printf("FAILED: %s\n", what);
    failures++;
}

static uint64_t chance = 88172645463325252u;

static uint32_t any(uint32_t below)
{
    chance ^= chance << 13;
    chance ^= chance >> 7;
    chance ^= chance << 17;
    return (uint32_t)((chance >> 11) % below);
}

/* ---- memory, lent to the byte ---- */

static uint8_t *piece[2][32];
static size_t piece_size[2][32], most_lent;

static uint8_t *lend(unsigned who, unsigned place, size_t bytes)
{
    if (bytes > most_lent)
        most_lent = bytes;
    if (bytes > ROOM)
        return NULL;
    if (bytes > 0 && bytes != piece_size[who][place]) {
        piece[who][place] = realloc(piece[who][place], bytes);
        piece_size[who][place] = bytes;
    }
    return piece[who][place];
}

/* ---- a station ---- */

static struct station station;
static uint8_t copy[LONGEST];
static uint32_t copy_length;
static char asked[ASKED][WIRE_TOPIC];  /* topics it asked for last */
static unsigned asks;
static unsigned long commits, kept;    /* bytes kept over a restart */
static struct wire_place last;
static int has_last;

static void s_subscribe(void *w, const char *topic)
{
    (void)w;
    if (strcmp(topic, "head") != 0)
        snprintf(asked[asks++ % ASKED], WIRE_TOPIC, "%s", topic);
}

static void s_unsubscribe(void *w, const char *topic)
{
    (void)w;
    (void)topic;
}

static void s_publish(void *w, const char *topic, const uint8_t *bytes,
                      size_t size)
{
    (void)w;
    (void)topic;
    (void)bytes;
    (void)size;
}

static uint8_t *s_lend(void *w, unsigned place, size_t bytes)
{
    (void)w;
    return lend(0, place, bytes);
}

static int s_load(void *w, uint8_t *image, uint32_t length)
{
    (void)w;
    if (length != copy_length)
        return -1;
    memcpy(image, copy, length);
    return 0;
}

static uint32_t s_commit(void *w, const uint8_t *image, uint32_t length,
                         const struct wire_place *place)
{
    uint8_t sum[WIRE_SUM];

    (void)w;
    if (image != NULL) {
        memcpy(copy, image, length);
        copy_length = length;
    }
    that(copy_length == length, "a length that the copy has not");
    sum_of(copy, copy_length, sum);
    that(memcmp(sum, place->sum, WIRE_SUM) == 0, "a copy without its sum");
    that(!has_last || wire_order(place, &last) >= 0, "a copy went backwards");
    last = *place;
    has_last = 1;
    commits++;
    return WIRE_FINE;
}

static void s_keep_put(void *w, const uint8_t *name, const uint8_t *bytes,
                       size_t size)
{
    (void)w;
    (void)name;
    (void)bytes;
    kept += size;
}

static int s_keep_get(void *w, const uint8_t *name, uint8_t *bytes, size_t size)
{
    (void)w;
    (void)name;
    (void)bytes;
    (void)size;
    return 0;
}

static void s_event(void *w, enum station_event e, const struct wire_place *p,
                    uint32_t d)
{
    (void)w;
    (void)e;
    (void)p;
    (void)d;
}

static struct station_port port = {
    .window = 8, .again = 256, .longest = LONGEST, .replace = 1,
    .subscribe = s_subscribe, .unsubscribe = s_unsubscribe,
    .publish = s_publish, .lend = s_lend, .load = s_load, .commit = s_commit,
    .keep_put = s_keep_put, .keep_get = s_keep_get, .event = s_event
};

static struct wire_place place(uint32_t term, uint32_t seq)
{
    struct wire_place p = { "line abc", term, seq, { 1, 2, 3 } };

    return p;
}

/* With a copy of zeros at state 1/5, or with none. */
static void begin(int with_copy)
{
    struct wire_place at = place(1, 5);

    memset(copy, 0, sizeof copy);
    copy_length = with_copy ? LENGTH : 0;
    sum_of(copy, LENGTH, at.sum);
    station_begin(&station, &port, "a", with_copy ? &at : NULL, copy_length,
                  at.sum);
    station_connected(&station);
}

/* ---- what is told ---- */

static uint8_t message[ENOUGH + 256];

static void tell_head(struct wire_place p, uint32_t length, uint32_t snap,
                      uint32_t kept_from, uint32_t base)
{
    struct wire_head h = { p, length, snap, kept_from, base, NULL, 0, NULL };

    station_message(&station, "head", message, wire_head_put(message, &h));
}

/* One chunk, with any numbers. */
static void tell_chunk(const char *topic, uint32_t number, uint32_t count,
                       const uint8_t *object_sum, const uint8_t *data,
                       size_t size)
{
    struct wire_chunk c = { number, count, object_sum, data, size };

    station_message(&station, topic, message, wire_chunk_put(message, &c));
}

/* An object of plain bytes, whole in one chunk. */
static void tell(const char *topic, const uint8_t *plain, size_t size)
{
    static uint8_t object[ENOUGH];
    uint8_t sum[WIRE_SUM];

    object[0] = 0;
    memcpy(object + 1, plain, size);
    sum_of(object, size + 1, sum);
    tell_chunk(topic, 0, 1, sum, object, size + 1);
}

static void tell_manifest(struct wire_place p, uint32_t length, uint32_t stretch,
                          const uint8_t *names, uint32_t count)
{
    static uint8_t bytes[ENOUGH];
    struct wire_manifest m = { p, length, stretch, count, names };
    char topic[WIRE_TOPIC];

    wire_topic_manifest(topic, p.seq, 0);
    tell(topic, bytes, wire_manifest_put(bytes, &m));
}

static void name_of(uint8_t name[WIRE_NAME], const uint8_t *bytes, size_t size)
{
    uint8_t sum[WIRE_SUM];

    sum_of(bytes, size, sum);
    memcpy(name, sum, WIRE_NAME);
}

static void tell_stretch(const uint8_t *bytes, size_t size)
{
    uint8_t name[WIRE_NAME];
    char topic[WIRE_TOPIC];

    name_of(name, bytes, size);
    wire_topic_stretch(topic, name, 0);
    tell(topic, bytes, size);
}

/* A record with one stretch of an image of that length. */
static void tell_record(uint32_t from, uint32_t length, uint32_t at,
                        uint32_t size, const uint8_t *before)
{
    static uint8_t record[ENOUGH], image[ENOUGH];
    struct squash_pair pair = { at, size };
    uint8_t after[WIRE_SUM] = { 9 };
    char topic[WIRE_TOPIC];

    memset(image, 0x55, sizeof image);
    wire_topic_record(topic, 1, from, 0);
    tell(topic, record, squash_record(record, &pair, 1, image, length, before,
                                      after));
}

/* ---- cases of a station ---- */

/* While a snapshot of 1,000 bytes is fetched, a head of its line says 1,200: the
 * second of its stretches of 600 bytes is then whole. */
static void length_in_snapshot(void)
{
    uint8_t bytes[600], names[2 * WIRE_NAME];

    begin(0);
    memset(bytes, 7, sizeof bytes);
    memset(names, 1, WIRE_NAME);
    name_of(names + WIRE_NAME, bytes, sizeof bytes);
    tell_head(place(1, 5), LENGTH, 5, 5, 5);
    tell_manifest(place(1, 5), LENGTH, 600, names, 2);
    tell_head(place(1, 6), 1200, 5, 5, 5);
    tell_stretch(bytes, sizeof bytes);
}

/* While records from the copy on are fetched, a head of its line says another
 * length, and a record of that length writes behind the copy's. */
static void length_in_records(void)
{
    uint8_t before[WIRE_SUM];

    begin(1);
    memcpy(before, station.sum, WIRE_SUM);
    tell_head(place(1, 7), LENGTH, 0, 0, 0);
    tell_head(place(1, 8), 5000, 0, 0, 0);
    tell_record(5, 5000, 4000, 1000, before);
}

/* The same the other way: the head is reached with a shorter length told. */
static void length_of_sum(void)
{
    uint8_t before[WIRE_SUM];

    begin(1);
    memcpy(before, station.sum, WIRE_SUM);
    tell_head(place(1, 6), LENGTH, 0, 0, 0);
    tell_record(5, LENGTH, 0, 1, before);
    tell_head(place(1, 7), LONGEST, 0, 0, 0);
    tell_record(6, LONGEST, LONGEST - 10, 10, station.seq_sum);
}

/* A stretch of 4 GiB, of an image of 1,000 bytes. */
static void wide_stretch(void)
{
    uint8_t name[WIRE_NAME], byte = 7, sum[WIRE_SUM] = { 3 };
    char topic[WIRE_TOPIC];

    begin(0);
    name_of(name, &byte, 1);
    tell_head(place(1, 5), LENGTH, 5, 5, 5);
    tell_manifest(place(1, 5), LENGTH, UINT32_MAX, name, 1);
    wire_topic_stretch(topic, name, 0);
    tell_chunk(topic, 0, UINT32_MAX, sum, &byte, 1);
    tell_stretch(&byte, 1);
    that(most_lent <= ROOM, "memory by a number of the manifest");
}

/* An honest manifest may have stretches longer than a short image. */
static void short_image(void)
{
    uint8_t bytes[LENGTH], name[WIRE_NAME];
    struct wire_place p = place(1, 5);

    begin(0);
    memset(bytes, 7, sizeof bytes);
    sum_of(bytes, sizeof bytes, p.sum);
    name_of(name, bytes, sizeof bytes);
    tell_head(p, LENGTH, 5, 5, 5);
    tell_manifest(p, LENGTH, 16384, name, 1);
    tell_stretch(bytes, sizeof bytes);
    that(commits == 1 && memcmp(copy, bytes, LENGTH) == 0, "a short image");
}

/* So many chunks that a bit for each, rounded up in 32 bits, is none. */
static void many_chunks(void)
{
    uint8_t byte = 7, sum[WIRE_SUM] = { 3 };
    char topic[WIRE_TOPIC];

    port.longest = UINT32_MAX;
    begin(0);
    tell_head(place(1, 5), UINT32_MAX - 15, 5, 5, 5);
    wire_topic_manifest(topic, 5, 0);
    most_lent = 0;
    tell_chunk(topic, 0, UINT32_MAX, sum, &byte, 1);
    that(most_lent == 0 ||
         most_lent >= (uint64_t)UINT32_MAX + UINT32_MAX / 8, "no bit for a chunk");
}

/* A broker makes a snapshot of its own for each connection: what is kept of them
 * must not fill the disk. */
static void kept_parts(void)
{
    uint8_t bytes[LENGTH], name[WIRE_NAME];
    struct wire_place p = place(1, 5);

    begin(0);
    for (uint8_t i = 0; i < 100; i++) {
        station_connected(&station);
        tell_head(place(1, 5), LENGTH, 5, 5, 5);
        memset(bytes, i, sizeof bytes);
        bytes[0] = 1;
        sum_of(bytes, sizeof bytes, p.sum);
        name_of(name, bytes, sizeof bytes);
        tell_manifest(p, LENGTH, LENGTH, name, 1);
        tell_stretch(bytes, sizeof bytes);
    }
    that(commits == 0, "a snapshot that is none was taken");
    that(kept >= LENGTH && kept <= 3 * LENGTH, "what is kept grows");
}

/* ---- an office ---- */

static struct office office;
static struct { char name[OFFICE_NAME]; uint8_t bytes[ENOUGH]; size_t size; }
    thing[64];
static unsigned things, lines, repeated, troubles;

static void o_subscribe(void *w, const char *topic)
{
    (void)w;
    (void)topic;
}

/* The echo, by which the office sees what the broker has, comes at once. */
static uint8_t echo[16];
static size_t echo_size;

static void o_publish(void *w, const char *topic, const uint8_t *bytes,
                      size_t size)
{
    static volatile uint8_t read;

    (void)w;
    for (size_t i = 0; i < size; i++)
        read = bytes[i];
    (void)read;
    if (strcmp(topic, "up/office") == 0 && size <= sizeof echo) {
        memcpy(echo, bytes, size);
        echo_size = size;
    }
}

static uint8_t *o_lend(void *w, unsigned p, size_t bytes)
{
    (void)w;
    return lend(1, p, bytes);
}

static int o_save(void *w, const uint8_t *state, const uint8_t *image,
                  uint32_t length)
{
    (void)w;
    (void)state;
    (void)image;
    (void)length;
    return 0;
}

static unsigned find(const char *name)
{
    unsigned i = 0;

    while (i < things && strcmp(thing[i].name, name) != 0)
        i++;
    return i;
}

static int o_put(void *w, const char *name, const uint8_t *bytes, size_t size)
{
    unsigned i = find(name);

    (void)w;
    if (i == 64 || size > ENOUGH)
        return -1;
    if (i == things)
        things++;
    snprintf(thing[i].name, OFFICE_NAME, "%s", name);
    memcpy(thing[i].bytes, bytes, size);
    thing[i].size = size;
    return 0;
}

static size_t o_get(void *w, const char *name, uint8_t *to, size_t room)
{
    unsigned i = find(name);

    (void)w;
    if (i == things)
        return 0;
    if (to != NULL && thing[i].size <= room)
        memcpy(to, thing[i].bytes, thing[i].size);
    return thing[i].size;
}

static void o_drop(void *w, const char *name)
{
    unsigned i = find(name);

    (void)w;
    if (i < things)
        thing[i] = thing[--things];
}

static int o_make(void *w, const uint8_t *before, const uint8_t *before_sum,
                  const uint8_t *after, uint32_t length, uint8_t *record,
                  size_t room, size_t *size)
{
    struct squash_pair pair = { 0, length };
    uint8_t sum[WIRE_SUM];

    (void)w;
    (void)room;
    (void)before;
    sum_of(after, length, sum);
    *size = squash_record(record, &pair, 1, after, length, before_sum, sum);
    return 0;
}

static void o_random(void *w, uint8_t *bytes, size_t size)
{
    (void)w;
    for (size_t i = 0; i < size; i++)
        bytes[i] = (uint8_t)any(256);
}

static void o_event(void *w, enum office_event e, const struct wire_place *p,
                    uint32_t d)
{
    (void)w;
    (void)p;
    (void)d;
    lines += e == OFFICE_NEW_LINE;
    repeated += e == OFFICE_REPEATED;
    troubles += e == OFFICE_TROUBLE || e == OFFICE_RIVAL;
}

static struct office_port office_port = {
    .chunk = 256, .stretch = 512, .again = 256, .subscribe = o_subscribe,
    .publish = o_publish, .lend = o_lend, .save = o_save, .put = o_put,
    .get = o_get, .drop = o_drop, .make = o_make, .random = o_random,
    .event = o_event
};

static uint8_t image[LONGEST];

static void change(uint32_t length)
{
    image[any(length)]++;
    office_change(&office, image, length);
}

static void connect_office(void)
{
    office_connected(&office);
    office_message(&office, "up/office", echo, echo_size);
}

static void begin_office(void)
{
    office_begin(&office, &office_port, NULL, 0);
    connect_office();
    change(LENGTH);
    change(LENGTH);
    lines = repeated = troubles = 0;
}

static void tell_at(struct wire_place p, uint32_t refusal)
{
    struct wire_at at = { p, refusal };
    uint8_t bytes[WIRE_AT];

    office_message(&office, "at/liar", bytes, wire_at_put(bytes, &at));
}

/* ---- cases of an office ---- */

/* Names longer than a station's can be. */
static void long_names(void)
{
    uint8_t bytes[WIRE_WANT];
    char topic[128];

    begin_office();
    wire_want_put(bytes, &office.at);
    for (int i = 0; i < 400; i++) {
        snprintf(topic, sizeof topic, "want/%040d", i);
        office_message(&office, topic, bytes, sizeof bytes);
    }
    that(office.wants == 0, "wishes of names that are none");
    office_message(&office, "want/a", bytes, sizeof bytes);
    that(office.wants == 1, "a wish behind them");
    office_message(&office, "want/a", NULL, 0);
    that(office.wants == 0, "that is taken back");
}

/* A station says that it follows an office of the last term there is. */
static void last_term(void)
{
    begin_office();
    tell_at(place(UINT32_MAX, 3), WIRE_FINE);
    tell_at(place(UINT32_MAX - 1, 3), WIRE_FINE);
    for (uint32_t i = 0; i < 5; i++)
        change(LENGTH + 10 + i);
    that(troubles == 0 && lines == 5, "a station's lie ends the office");
}

/* A station says, again and again, that it is ahead. */
static void ahead(void)
{
    begin_office();
    connect_office();
    for (int i = 0; i < 100; i++) {
        struct wire_place p = office.at;

        p.seq++;
        tell_at(p, WIRE_FINE);
        p = office.at;
        tell_at(p, WIRE_SPLIT);
    }
    that(lines == 1, "a station's lie makes a line for each message");
    connect_office();
    that(lines == 1, "nor when it connects again");
}

/* A station says, again and again, that it lacks something. */
static void lacking(void)
{
    begin_office();
    for (int i = 0; i < 100; i++)
        tell_at(office.at, WIRE_MISSING);
    that(repeated == 1, "a station's lie keeps the office busy");
}

/* A thing of the store became longer than it can be. */
static void long_thing(void)
{
    unsigned i;

    begin_office();
    i = find("1-r-1-0");
    that(i < things, "the record is in the store");
    thing[i].size = 4 * LENGTH;
    tell_at(office.at, WIRE_MISSING);
    that(repeated == 1 && troubles == 0, "published again");
}

/* ---- lies by chance ---- */

static uint32_t number(void)
{
    static const uint32_t edge[] = { 0, 1, 2, 3, 15, 16, 255, 256, LENGTH - 1,
        LENGTH, LENGTH + 1, LONGEST, LONGEST + 1, INT32_MAX, UINT32_MAX - 1,
        UINT32_MAX };

    return any(3) == 0 ? edge[any(sizeof edge / sizeof *edge)] : any(20);
}

static uint32_t a_length(void)
{
    return any(8) == 0 ? number() : 200 + 200 * any(8);
}

static uint8_t pool[4][400];  /* bytes that stretches may have */

static void lie_head(void)
{
    struct wire_head h;
    uint8_t with[64];

    memset(&h, 0, sizeof h);
    h.place = place(any(20) == 0 ? number() : 1,
                    any(10) == 0 ? number() : station.goal.place.seq + any(3));
    h.place.line[0] = (uint8_t)('l' + (any(20) == 0));
    o_random(NULL, h.place.sum, any(2) * WIRE_SUM);
    h.length = a_length();
    h.kept = h.snap = any(2) == 0 ? h.place.seq : station.pin.seq;
    h.base = any(2) == 0 ? h.kept : 0;
    if (any(8) == 0)
        h.base = number(), h.kept = number(), h.snap = number();
    if (any(4) == 0) {
        o_random(NULL, with, sizeof with);
        if (any(2) == 0)
            memcpy(with, station.sum, WIRE_CHECK);
        wire_put_u32(with + WIRE_CHECK, any(4));
        h.inlined = with;
        h.inlined_size = any(sizeof with);
    }
    station_message(&station, "head", message, wire_head_put(message, &h));
}

static size_t lie_manifest(uint8_t *to)
{
    static uint8_t names[ENOUGH];
    struct wire_manifest m = { station.pin, station.goal.length,
                               any(4) == 0 ? number() : 50 + 50 * any(8), 0,
                               names };

    if (any(6) == 0)
        m.length = a_length();
    if (m.stretch > 0)
        m.count = wire_stretches(m.length, m.stretch);
    if (m.stretch == 0 || m.count > 1000)
        m.count = any(8);
    for (uint32_t i = 0; i < m.count; i++)
        name_of(names + i * WIRE_NAME, pool[any(4)],
                any(4) > 0 && m.stretch <= 400 ? m.stretch : any(400) + 1);
    return wire_manifest_put(to, &m);
}

static size_t lie_record(uint8_t *to)
{
    static uint8_t after[ENOUGH];
    struct squash_pair pair[3];
    uint32_t length = any(4) == 0 ? a_length() : station.goal.length, at = 0, n;

    if (length > LONGEST)
        length = LONGEST;
    for (n = 0; n < 3 && at < length; n++) {
        pair[n].at = at + any(length - at);
        pair[n].size = 1 + any(length - pair[n].at);
        at = pair[n].at + pair[n].size;
    }
    return squash_record(to, pair, n, after, length, station.seq_sum,
                         pool[any(4)]);
}

/* What the station asked for lately, whole or in chunks, with numbers that may
 * be wrong. */
static void lie_object(void)
{
    static uint8_t object[ENOUGH], plain[ENOUGH];
    const char *topic = asked[any(asks < ASKED ? asks + 1 : ASKED) % ASKED];
    uint32_t count = 1, which = 0;
    size_t size, part;
    char full[WIRE_TOPIC];
    uint8_t sum[WIRE_SUM];

    if (topic[0] == 's')
        size = lie_manifest(plain);
    else if (topic[0] == 'r')
        size = lie_record(plain);
    else
        memcpy(plain, pool[any(4)], size = 1 + any(400));
    if (topic[0] == 'c' && station.stretch > 0 && station.stretch <= 400)
        size = station.stretch;
    size = object_pack(object, plain, size);
    if (any(20) == 0)
        wire_put_u32(object + 1, number());
    sum_of(object, size, sum);
    if (any(3) == 0)
        count = 1 + any(5);
    part = (size + count - 1) / count;
    snprintf(full, sizeof full, "%s", topic);
    if (strrchr(full, '/') == NULL)
        return;
    for (; which < count && which * part < size; which++) {
        size_t left = size - which * part;

        snprintf(strrchr(full, '/'), 12, "/%u", which);
        tell_chunk(full, which, any(12) == 0 ? number() | 8 : count, sum,
                   object + which * part,
                   any(12) == 0 ? 1 + any(4) : left < part ? left : part);
    }
}

static void lie_to_office(void)
{
    struct wire_place p = any(3) > 0 ? office.at : place(number(), number());
    uint8_t bytes[WIRE_HEAD + WIRE_CHECK];
    struct wire_head h;

    if (any(2) == 0)
        p.seq = number();
    if (any(8) == 0) {
        p.line[0] = 'x';
        p.term = number();
    }
    memset(&h, 0, sizeof h);
    h.place = p;
    h.length = a_length();
    if (any(3) == 0)
        tell_at(p, any(WIRE_REFUSALS));
    else if (any(2) == 0)
        office_message(&office, any(2) == 0 ? "want/a" : "want/",
                       bytes, wire_want_put(bytes, &p));
    else if (any(20) == 0)
        office_message(&office, "head", bytes, wire_head_put(bytes, &h));
    else if (any(10) == 0)
        connect_office();
    else
        change(any(20) == 0 ? LENGTH + any(100) : LENGTH);
    if (office.stopped || office.at.term > 1000 || things > 40) {
        things = 0;
        begin_office();
    }
}

static void random_lies(unsigned long turns)
{
    for (int i = 0; i < 4; i++)
        memset(pool[i], i + 1, sizeof pool[i]);
    begin(0);
    begin_office();
    for (unsigned long i = 0; i < turns; i++) {
        if (any(200) == 0) {
            has_last = 0;
            begin((int)any(2));
        }
        if (any(30) == 0)
            station_connected(&station);
        if (any(6) == 0)
            lie_head();
        else
            lie_object();
        if (i % 16 == 0)
            lie_to_office();
    }
    that(most_lent <= ROOM, "memory by a number of a message");
    printf("%lu turns of lies, %lu commits, %u lines\n", turns, commits, lines);
}

/* ---- which ---- */

static const struct { const char *name; void (*run)(void); } cases[] = {
    { "length-in-snapshot", length_in_snapshot },
    { "length-in-records", length_in_records },
    { "length-of-sum", length_of_sum },
    { "wide-stretch", wide_stretch },
    { "short-image", short_image },
    { "many-chunks", many_chunks },
    { "kept-parts", kept_parts },
    { "long-names", long_names },
    { "last-term", last_term },
    { "ahead", ahead },
    { "lacking", lacking },
    { "long-thing", long_thing },
};

int main(int argc, char **argv)
{
    int found = 0;

    if (argc == 4 && strcmp(argv[1], "random") == 0) {
        chance ^= strtoull(argv[3], NULL, 10) * 0x9E3779B97F4A7C15u;
        random_lies(strtoul(argv[2], NULL, 10));
        return failures > 0;
    }
    for (size_t i = 0; i < sizeof cases / sizeof *cases; i++) {
        if (argc == 1)
            puts(cases[i].name);
        else if (strcmp(argv[1], cases[i].name) == 0) {
            cases[i].run();
            found = 1;
        }
    }
    return failures > 0 || (argc > 1 && !found);
}
