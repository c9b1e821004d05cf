/* The protocol without a broker: an office, three stations and a broker that
 * loses, doubles, reorders, damages, forgets and goes back, in one process. Each
 * episode is a new world; when its faults are over, everybody connects, and
 * every copy must be the office's file.
 *     simulate [STEPS [SEED]]
 * What must hold at each commit of a station: its image has the sum that is
 * promised, the office had that state under that number, and it is newer than
 * the last. What must hold at each head of the office: it is one, of a state that
 * the office has kept. The last line says how many episodes ended well.
 * -DMANY=N: N stations. -DLIMIT=N, -DAGAIN=N: how long a broker's queue is, and
 * after how many messages the head is asked for again. */
#include "bhtf_delta.h"
#include "office.h"
#include "squash.h"
#include "station.h"

#include <setjmp.h>
#include <stdio.h>
#include <stdlib.h>
#include <string.h>
#include <time.h>

#ifndef MANY
#define MANY 3
#endif
#ifndef LIMIT
#define LIMIT 40
#define AGAIN 32
#endif

enum { STATIONS = MANY, CLIENTS = STATIONS + 1, OFFICE = STATIONS,
       LENT = (int)OFFICE_PLACES + (int)STATION_PLACES, LONGEST = 1024, QUEUE = 6000, STEPS_EACH = 3000 };

/* ---- chance ---- */

static uint64_t chance;

static uint32_t any(uint32_t below)
{
    chance ^= chance << 13;
    chance ^= chance >> 7;
    chance ^= chance << 17;
    return (uint32_t)((chance >> 11) % below);
}

/* ---- messages ---- */

struct message {
    char topic[128];
    size_t size;
    uint8_t bytes[];
};

static struct message *message_new(const char *topic, const uint8_t *bytes,
                                   size_t size)
{
    struct message *m = malloc(sizeof *m + size + 1);

    snprintf(m->topic, sizeof m->topic, "%s", topic);
    m->size = size;
    if (size > 0)
        memcpy(m->bytes, bytes, size);
    return m;
}

static struct message *message_copy(const struct message *m)
{
    return message_new(m->topic, m->bytes, m->size);
}

/* ---- queues: a SUBSCRIBE travels as a message of its own ---- */

struct queue {
    struct message *item[QUEUE];
    char kind[QUEUE];  /* p publish, s subscribe, u unsubscribe */
    size_t first, count;
};

static void push(struct queue *q, char kind, struct message *m)
{
    if (q->count == QUEUE) {
        fprintf(stderr, "queue too short\n");
        exit(2);
    }
    q->item[(q->first + q->count) % QUEUE] = m;
    q->kind[(q->first + q->count++) % QUEUE] = kind;
}

/* Takes the i-th. */
static struct message *take(struct queue *q, size_t i, char *kind)
{
    struct message *m = q->item[(q->first + i) % QUEUE];

    *kind = q->kind[(q->first + i) % QUEUE];
    for (; i > 0; i--) {
        q->item[(q->first + i) % QUEUE] = q->item[(q->first + i - 1) % QUEUE];
        q->kind[(q->first + i) % QUEUE] = q->kind[(q->first + i - 1) % QUEUE];
    }
    q->first = (q->first + 1) % QUEUE;
    q->count--;
    return m;
}

static void empty(struct queue *q)
{
    char kind;

    while (q->count > 0)
        free(take(q, 0, &kind));
}

/* ---- a store of things by name: the broker's retained ones, and the disk ---- */

struct store {
    struct message **item;
    size_t count, room;
};

static size_t find(const struct store *s, const char *topic)
{
    size_t i = 0;

    while (i < s->count && strcmp(s->item[i]->topic, topic) != 0)
        i++;
    return i;
}

static void keep(struct store *s, const char *topic, const uint8_t *bytes,
                 size_t size)
{
    size_t i = find(s, topic);

    if (i < s->count) {
        free(s->item[i]);
        s->item[i] = s->item[--s->count];
    }
    if (size == 0)
        return;
    if (s->count == s->room) {
        s->room = s->room * 2 + 64;
        s->item = realloc(s->item, s->room * sizeof *s->item);
    }
    s->item[s->count++] = message_new(topic, bytes, size);
}

static void forget(struct store *s)
{
    while (s->count > 0)
        free(s->item[--s->count]);
}

static void copy_store(struct store *to, const struct store *from)
{
    forget(to);
    for (size_t i = 0; i < from->count; i++)
        keep(to, from->item[i]->topic, from->item[i]->bytes,
             from->item[i]->size);
}

/* ---- the world ---- */

struct disk {  /* of a station */
    uint8_t copy[LONGEST];
    uint32_t length;
    struct wire_place place, next;
    int placed, has_next;
};

struct office_disk {
    uint8_t file[LONGEST];      /* the file that it publishes */
    uint32_t length;
    uint8_t shadow[LONGEST];
    uint32_t shadow_length;
    uint8_t state[OFFICE_STATE];
    int has_state;
    struct store things;
};

static struct client {
    int up;
    struct queue in, out;       /* from the broker, to it */
    struct store subscribed;
    uint8_t *lent[LENT];
    size_t lent_size[LENT];
} client[CLIENTS];
static struct station station[STATIONS];
static struct disk disk[STATIONS];
static struct office office;
static struct office_disk office_disk, backup;
static struct store retained, saved;   /* the broker, and what it saved */
static struct store heads;             /* the last 64 heads that came to the broker */
static unsigned long head_count;
static struct store history;           /* places and sums that the office had */
static struct store images;            /* sums that the file had */
static char fresh[64][OFFICE_NAME];    /* put since the last save */
static unsigned fresh_count;
static int lossy;                      /* of this episode */
static int slow;                       /* station that seldom takes a message */
static long fuse = -1;                 /* actions until the process dies */
static jmp_buf death;
static uint64_t seed;
static unsigned long steps, messages, commits, snapshots, lines, deaths, drops, damages;

static void fail(const char *what)
{
    printf("FAILED: %s (seed %llu, step %lu)\n", what,
           (unsigned long long)seed, steps);
    exit(1);
}

/* A process may die at any of its actions. */
static void action(void)
{
    if (fuse >= 0 && fuse-- == 0)
        longjmp(death, 1);
}

static void hex(char *to, const uint8_t *bytes, size_t size)
{
    for (size_t i = 0; i < size; i++)
        sprintf(to + 2 * i, "%02x", bytes[i]);
}

static void place_key(char *key, const struct wire_place *p)
{
    hex(key, p->line, WIRE_LINE);
    hex(key + 2 * WIRE_LINE, p->sum, 16);
    sprintf(key + 2 * WIRE_LINE + 32, "/%lu/%lu", (unsigned long)p->term,
            (unsigned long)p->seq);
}

static int client_of(void *with)
{
    return (int)((struct client *)with - client);
}

/* ---- ports ---- */

static uint8_t *port_lend(void *with, unsigned place, size_t bytes)
{
    struct client *c = with;

    if (bytes > c->lent_size[place]) {
        c->lent[place] = realloc(c->lent[place], bytes);
        c->lent_size[place] = bytes;
    }
    return c->lent[place];
}

static void port_subscribe(void *with, const char *topic)
{
    struct client *c = with;

    action();
    if (c->up)
        push(&c->out, 's', message_new(topic, NULL, 0));
}

static void port_unsubscribe(void *with, const char *topic)
{
    struct client *c = with;

    action();
    if (c->up)
        push(&c->out, 'u', message_new(topic, NULL, 0));
}

/* What must hold of each head that the office sends. */
static void judge_head(const uint8_t *bytes, size_t size)
{
    struct wire_head h;
    char key[128];

    if (!wire_head_get(&h, bytes, size))
        fail("the office published a head that is none");
    place_key(key, &h.place);
    if (find(&history, key) == history.count)
        fail("the office published a state that it has not kept");
}

static void port_publish(void *with, const char *topic, const uint8_t *bytes,
                         size_t size)
{
    struct client *c = with;

    if (client_of(with) == OFFICE && strcmp(topic, "head") == 0)
        judge_head(bytes, size);
    action();
    if (c->up)
        push(&c->out, 'p', message_new(topic, bytes, size));
}

static int station_load(void *with, uint8_t *image, uint32_t length)
{
    const struct disk *d = &disk[client_of(with)];

    if (d->length != length)
        return -1;
    memcpy(image, d->copy, length);
    return 0;
}

/* What must hold whenever a copy changes. */
static void judge_commit(const struct disk *d, const uint8_t *image,
                         uint32_t length, const struct wire_place *place)
{
    char key[128], name[2 * WIRE_SUM + 1];
    uint8_t sum[WIRE_SUM];
    size_t i;

    bhtf_sum(image, length, sum);
    if (memcmp(sum, place->sum, WIRE_SUM) != 0)
        fail("a copy has not the sum of its place");
    place_key(key, place);
    i = find(&history, key);
    if (i == history.count)
        fail("a copy is in a state that the office never had");
    hex(name, sum, WIRE_SUM);
    if (find(&images, name) == images.count)
        fail("a copy is an image that the file never was");
    if (d->placed && wire_order(place, &d->place) < 0)
        fail("a copy went backwards");
    if (d->placed && wire_order(place, &d->place) == 0 &&
        memcmp(place->sum, d->place.sum, WIRE_SUM) != 0)
        fail("one place, two images");
}

static uint32_t station_commit(void *with, const uint8_t *image,
                               uint32_t length, const struct wire_place *place)
{
    struct disk *d = &disk[client_of(with)];

    judge_commit(d, image != NULL ? image : d->copy, length, place);
    commits++;
    action();
    d->next = *place;
    d->has_next = 1;
    action();
    if (image != NULL) {
        memcpy(d->copy, image, length);
        d->length = length;
    }
    action();
    d->place = *place;
    d->placed = 1;
    d->has_next = 0;
    return WIRE_FINE;
}

static void station_event(void *with, enum station_event e,
                          const struct wire_place *p, uint32_t detail)
{
    (void)with;
    (void)p;
    (void)detail;
    snapshots += e == STATION_SNAPSHOT;
}

static int office_save(void *with, const uint8_t *state, const uint8_t *image,
                       uint32_t length)
{
    struct wire_place p;
    char key[128];

    (void)with;
    action();
    memcpy(p.line, state, WIRE_LINE);
    p.term = wire_u32(state + 8);
    p.seq = wire_u32(state + 12);
    bhtf_sum(image, length, p.sum);
    place_key(key, &p);
    keep(&history, key, p.sum, WIRE_SUM);
    memcpy(office_disk.state, state, OFFICE_STATE);
    memcpy(office_disk.shadow, image, length);
    office_disk.shadow_length = length;
    office_disk.has_state = 1;
    fresh_count = 0;
    action();
    return 0;
}

static int office_put(void *with, const char *name, const uint8_t *bytes,
                      size_t size)
{
    (void)with;
    action();
    keep(&office_disk.things, name, bytes, size);
    if (fresh_count < 64)
        snprintf(fresh[fresh_count++], OFFICE_NAME, "%s", name);
    return 0;
}

static size_t office_get(void *with, const char *name, uint8_t *to, size_t room)
{
    size_t i = find(&office_disk.things, name);
    const struct message *m;

    (void)with;
    if (i == office_disk.things.count)
        return 0;
    m = office_disk.things.item[i];
    if (to != NULL && m->size <= room)
        memcpy(to, m->bytes, m->size);
    return m->size;
}

static void office_drop(void *with, const char *name)
{
    (void)with;
    action();
    keep(&office_disk.things, name, NULL, 0);
}

static int office_make(void *with, const uint8_t *before,
                       const uint8_t *before_sum, const uint8_t *after,
                       uint32_t length, uint8_t *record, size_t room,
                       size_t *size)
{
    struct squash_pair pair[LONGEST];
    uint8_t sum[WIRE_SUM];
    size_t n = 0;

    (void)with;
    (void)room;
    for (uint32_t i = 0; i < length; i++)
        if (before[i] != after[i]) {
            pair[n].at = i;
            pair[n++].size = 1;
        }
    n = squash_pairs(pair, n);
    bhtf_sum(after, length, sum);
    *size = squash_record(record, pair, n, after, length, before_sum, sum);
    return 0;
}

static void office_random(void *with, uint8_t *bytes, size_t size)
{
    (void)with;
    for (size_t i = 0; i < size; i++)
        bytes[i] = (uint8_t)any(256);
}

static struct office_port office_port;
static int restored;  /* the office's disk went back in this episode */
static int person;    /* who sees that it follows an older line than others */

static void office_event(void *with, enum office_event e,
                         const struct wire_place *p, uint32_t detail)
{
    (void)with;
    (void)p;
    (void)detail;
    lines += e == OFFICE_NEW_LINE;
    if (e == OFFICE_NEW_LINE)
        office_port.take_over = 0;
    if (e == OFFICE_RIVAL || e == OFFICE_ELSEWHERE) {
        if (!restored)
            fail("the office stopped, and there is no other");
        person = 1;
    }
    if (e == OFFICE_TROUBLE)
        fail("the office's store failed");
}

static struct station_port station_port[STATIONS];

static void make_ports(void)
{
    for (int i = 0; i < STATIONS; i++)
        station_port[i] = (struct station_port){
            .with = &client[i], .window = 1 + any(12), .again = AGAIN, .longest = LONGEST,
            .subscribe = port_subscribe, .unsubscribe = port_unsubscribe,
            .publish = port_publish, .lend = port_lend, .load = station_load,
            .commit = station_commit, .event = station_event };
    office_port = (struct office_port){
        .with = &client[OFFICE], .chunk = 24 + any(120),
        .stretch = 32 + any(96), .again = AGAIN, .subscribe = port_subscribe,
        .publish = port_publish, .lend = port_lend, .save = office_save,
        .put = office_put, .get = office_get, .drop = office_drop,
        .make = office_make, .random = office_random, .event = office_event };
}

/* ---- the broker ---- */

static int matches(const char *filter, const char *topic)
{
    size_t n = strlen(filter);

    if (filter[n - 1] != '+')
        return strcmp(filter, topic) == 0;
    return strncmp(filter, topic, n - 1) == 0 && strchr(topic + n - 1, '/') == NULL;
}

/* Drops the newest, as brokers do, when a queue is full. */
static void deliver(int to, struct message *m)
{
    if (client[to].in.count >= LIMIT) {
        drops++;
        free(m);
        return;
    }
    push(&client[to].in, 'p', m);
}

static void broker_publish(const struct message *m)
{
    char name[WIRE_TOPIC];

    if (strcmp(m->topic, "head") == 0 && m->size > 0) {
        snprintf(name, sizeof name, "%lu", head_count++ % 64);
        keep(&heads, name, m->bytes, m->size);
    }
    keep(&retained, m->topic, m->bytes, m->size);
    for (int c = 0; c < CLIENTS; c++)
        for (size_t i = 0; client[c].up && i < client[c].subscribed.count; i++)
            if (matches(client[c].subscribed.item[i]->topic, m->topic)) {
                deliver(c, message_copy(m));
                break;
            }
}

static void broker_subscribe(int c, const struct message *m)
{
    static const uint8_t yes = 1;

    keep(&client[c].subscribed, m->topic, &yes, 1);
    for (size_t i = 0; i < retained.count; i++)
        if (matches(m->topic, retained.item[i]->topic))
            deliver(c, message_copy(retained.item[i]));
}

static void damage(struct message *m)
{
    if (m->size > 0) {
        m->bytes[any((uint32_t)m->size)] ^= (uint8_t)(1u << any(8));
        damages++;
    }
}

/* A message of a client reaches the broker. */
static void to_broker(int c, int faults)
{
    struct message *m;
    char kind;

    if (client[c].out.count == 0)
        return;
    m = take(&client[c].out, 0, &kind);
    if (faults && lossy && kind == 'p' && any(400) == 0)
        damage(m);
    if (kind == 's')
        broker_subscribe(c, m);
    else if (kind == 'u')
        keep(&client[c].subscribed, m->topic, NULL, 0);
    else
        broker_publish(m);
    if (faults && kind == 'p' && any(20) == 0)
        broker_publish(m);
    free(m);
}

/* ---- processes and connections ---- */

static void cut(int c)
{
    client[c].up = 0;
    empty(&client[c].in);
    empty(&client[c].out);
    forget(&client[c].subscribed);
}

static void start_station(int i)
{
    struct disk *d = &disk[i];
    uint8_t sum[WIRE_SUM];
    char name[16];

    if (d->length > 0)
        bhtf_sum(d->copy, d->length, sum);
    if (d->has_next && memcmp(sum, d->next.sum, WIRE_SUM) == 0) {
        d->place = d->next;
        d->placed = 1;
    }
    d->has_next = 0;
    snprintf(name, sizeof name, "s%d", i);
    station_begin(&station[i], &station_port[i], name,
                  d->placed ? &d->place : NULL, d->length, sum);
}

static void start_office(void)
{
    memcpy(port_lend(&client[OFFICE], OFFICE_SHADOW, LONGEST),
           office_disk.shadow, LONGEST);
    office_begin(&office, &office_port,
                 office_disk.has_state ? office_disk.state : NULL,
                 office_disk.shadow_length);
}

static void restart(int c)
{
    cut(c);
    if (c == OFFICE)
        start_office();
    else
        start_station(c);
}

static void die(int c)
{
    deaths++;
    fuse = -1;
    for (uint32_t n = any((uint32_t)client[c].out.count + 1); n > 0; n--)
        to_broker(c, 0);  /* what it said last may have gone out, or not */
    if (c == OFFICE && any(3) == 0)
        for (unsigned i = 0; i < fresh_count; i++)
            if (any(2) == 0)  /* the power failed: not all was flushed */
                keep(&office_disk.things, fresh[i], NULL, 0);
    fresh_count = 0;
    restart(c);
}

static void connect_client(int c)
{
    client[c].up = 1;
    if (c == OFFICE)
        office_connected(&office);
    else
        station_connected(&station[c]);
}

/* A message of the broker reaches a client; with faults it may be late, twice,
 * damaged or lost. */
static void to_client(int c, int faults)
{
    struct queue *q = &client[c].in;
    struct message *volatile m;  /* outlives a longjmp */
    size_t i = 0;
    char kind;

    if (q->count == 0)
        return;
    if (faults && any(10) == 0)
        i = any(q->count < 6 ? (uint32_t)q->count : 6);
    m = take(q, i, &kind);
    if (faults && any(20) == 0)
        push(q, 'p', message_copy(m));
    if (faults && lossy && any(400) == 0)
        damage(m);
    if (faults && lossy && any(30) == 0) {
        free(m);
        return;
    }
    if (setjmp(death) != 0) {
        die(c);
    } else if (c == OFFICE) {
        office_message(&office, m->topic, m->bytes, m->size);
    } else {
        station_message(&station[c], m->topic, m->bytes, m->size);
    }
    fuse = -1;
    messages++;
    free(m);
}

/* ---- what happens ---- */

static void note_file(void)
{
    uint8_t sum[WIRE_SUM];
    char name[2 * WIRE_SUM + 1];

    bhtf_sum(office_disk.file, office_disk.length, sum);
    hex(name, sum, WIRE_SUM);
    keep(&images, name, sum, 1);
}

/* The file changes; now and then back, or to another length. */
static void change_file(void)
{
    static uint8_t before[LONGEST];
    static uint32_t before_length;
    uint32_t what = any(200);

    if (what < 30 && before_length == office_disk.length) {
        memcpy(office_disk.file, before, before_length);
        note_file();
        return;
    }
    memcpy(before, office_disk.file, office_disk.length);
    before_length = office_disk.length;
    if (what == 199) {
        office_disk.length = 200 + any(LONGEST - 200);
        for (uint32_t i = 0; i < office_disk.length; i++)
            office_disk.file[i] = any(4) == 0 ? (uint8_t)any(256) : 0;
    }
    for (uint32_t n = 1 + any(what == 198 ? 300 : 4); n > 0; n--)
        office_disk.file[any(office_disk.length)] = (uint8_t)any(256);
    note_file();
}

static void office_looks(void)
{
    if (setjmp(death) != 0)
        die(OFFICE);
    else
        office_change(&office, office_disk.file, office_disk.length);
    fuse = -1;
}

static void save_office(struct office_disk *to, const struct office_disk *from)
{
    struct store things = to->things;

    *to = *from;
    to->things = things;
    copy_store(&to->things, &from->things);
}

static void broker_dies(void)
{
    for (int c = 0; c < CLIENTS; c++)
        cut(c);
    if (any(3) == 0)
        forget(&retained);
    else
        copy_store(&retained, &saved);
    if (!lossy)
        forget(&heads);  /* of what it forgot nothing comes again */
}

/* Somebody writes an old head, one of an older office, or rubbish. */
static void write_head(void)
{
    uint8_t bytes[WIRE_HEAD + WIRE_CHECK];
    struct wire_head h;
    struct message *m;

    if (heads.count > 0 && any(3) > 0) {
        m = heads.item[any((uint32_t)heads.count)];
        m = message_new("head", m->bytes, m->size);
    } else if (office.known && office.at.term > 1 && any(2) == 0) {
        memset(&h, 0, sizeof h);
        h.length = 100 + any(200);
        office_random(NULL, h.place.line, WIRE_LINE);
        office_random(NULL, h.place.sum, WIRE_SUM);
        h.place.term = any(office.at.term);
        h.place.seq = any(100);
        m = message_new("head", bytes, wire_head_put(bytes, &h));
    } else {
        office_random(NULL, bytes, sizeof bytes);
        m = message_new("head", bytes, any(sizeof bytes));
    }
    broker_publish(m);
    free(m);
}

/* Only while nothing of the old life can be told of as new: the file and the
 * store go back together. */
static void restore_backup(void)
{
    save_office(&office_disk, &backup);
    note_file();
    restored = 1;
    restart(OFFICE);
}

/* Whoever restored a backup older than the broker's line is told, and says that
 * this is the office now. */
static void take_over(void)
{
    person = 0;
    office_port.take_over = 1;
    restart(OFFICE);
}

/* A process dies at one of the next actions that its work leads to. */
static void killed_in_work(int c)
{
    unsigned long before = deaths;
    long left = (long)any(30);

    for (int n = 0; n < 20 && deaths == before && left >= 0; n++) {
        fuse = left;
        if (c == OFFICE && any(2) == 0) {
            change_file();
            office_looks();
        } else {
            to_client(c, 1);
        }
        left -= 1 + (long)any(4);
    }
    fuse = -1;
}

static void fault(void)
{
    int c = (int)any(CLIENTS);

    switch (any(14)) {
    case 0: case 1: case 2:
        cut(c);
        break;
    case 3: case 4:
        restart(c);
        break;
    case 5: case 6: case 7:
        killed_in_work(c);
        break;
    case 8:
        copy_store(&saved, &retained);
        break;
    case 9:
        if (any(3) == 0)
            broker_dies();
        break;
    case 10: case 11:
        if (any(2) == 0)
            write_head();
        break;
    case 12:
        save_office(&backup, &office_disk);
        break;
    default:
        if (any(8) == 0 && backup.length > 0)
            restore_backup();
    }
}

static void step(int faults)
{
    uint32_t what = any(100);

    steps++;
    if (person)
        take_over();
    if (what < 40)
        for (int c = (int)any(STATIONS), n = (int)any(8); n >= 0; n--) {
            if (c != slow || !faults || any(40) == 0)
                to_client(c, faults);
        }
    else if (what < 62)
        for (int n = (int)any(16); n >= 0; n--)
            to_broker(OFFICE, faults);
    else if (what < 76)
        for (int c = (int)any(STATIONS), n = (int)any(8); n >= 0; n--)
            to_broker(c, faults);
    else if (what < 84)
        for (int n = (int)any(8); n >= 0; n--)
            to_client(OFFICE, faults);
    else if (what < 88 && faults)
        change_file();
    else if (what < 92)
        office_looks();
    else if (what < 99)
        for (int c = 0; c < CLIENTS; c++) {
            if (!client[c].up && any(2) == 0)
                connect_client(c);
        }
    else if (faults)
        fault();
}

/* For whoever looks for the reason: what a station waits for, and whether the
 * broker has it. */
static void show(const struct station *s)
{
    char topic[WIRE_TOPIC];

    printf("at %lu/%lu, goal %lu/%lu snap %lu kept %lu base %lu, pin %lu, new "
           "image at %lu, asked up to %lu\n", (unsigned long)s->at.term,
           (unsigned long)s->at.seq, (unsigned long)s->goal.place.term,
           (unsigned long)s->goal.place.seq, (unsigned long)s->goal.snap,
           (unsigned long)s->goal.kept, (unsigned long)s->goal.base,
           (unsigned long)s->pin.seq, (unsigned long)s->seq,
           (unsigned long)s->asked);
    for (int i = 0; i < STATION_GETS; i++) {
        const struct station_get *g = &s->get[i];

        if (g->kind == 0)
            continue;
        if (g->level > 0)
            wire_topic_record(topic, g->level, g->from, 0);
        else if (g->kind == 3)
            wire_topic_stretch(topic, g->name, 0);
        else
            wire_topic_manifest(topic, g->from, 0);
        printf("%s %s: %lu of %lu chunks, %lu asked\n", topic,
               find(&retained, topic) < retained.count ? "there" : "not there",
               (unsigned long)g->have, (unsigned long)g->count,
               (unsigned long)g->asked);
    }
    printf("office: %lu/%lu, base %lu, newest snapshot %lu, %lu kept\n",
           (unsigned long)office.at.term, (unsigned long)office.at.seq,
           (unsigned long)office.base,
           (unsigned long)(office.snaps > 0 ? office.snap[office.snaps - 1] : 0),
           (unsigned long)office.snaps);
}

static int busy(void)
{
    for (int c = 0; c < CLIENTS; c++)
        if (!client[c].up || client[c].in.count + client[c].out.count > 0)
            return 1;
    return 0;
}

/* Messages go on until there are none; everybody is then equal. */
static void quiet(void)
{
    unsigned long most = 400000ul / 3 * STATIONS;
    char words[160];

    if (lossy)
        for (int c = 0; c < CLIENTS; c++)
            cut(c);
    do {
        while (busy() && most > 0) {
            step(0);
            most--;
        }
        office_looks();
    } while (busy() && most > 0);
    if (most == 0)
        fail("messages do not end");
    if (!office_published(&office))
        fail("the office's head did not come back");
    for (int i = 0; i < STATIONS; i++)
        if (disk[i].length != office_disk.length ||
            memcmp(disk[i].copy, office_disk.file, office_disk.length) != 0 ||
            !station_equal(&station[i])) {
            snprintf(words, sizeof words, "station %d is not equal in the end: "
                     "work %d, refusal %lu, length %lu of %lu", i,
                     station[i].work, (unsigned long)station[i].refusal,
                     (unsigned long)disk[i].length,
                     (unsigned long)office_disk.length);
            show(&station[i]);
            fail(words);
        }
}

static void new_world(void)
{
    for (int c = 0; c < CLIENTS; c++)
        cut(c);
    forget(&retained);
    forget(&saved);
    forget(&heads);
    forget(&history);
    forget(&images);
    forget(&office_disk.things);
    forget(&backup.things);
    memset(disk, 0, sizeof disk);
    backup.length = 0;
    office_disk.has_state = 0;
    office_disk.length = 200 + any(LONGEST - 200);
    for (uint32_t i = 0; i < office_disk.length; i++)
        office_disk.file[i] = any(3) == 0 ? (uint8_t)any(256) : 0;
    note_file();
    lossy = (int)any(2);
    slow = (int)any(2 * STATIONS);
    restored = person = 0;
    fresh_count = 0;
    make_ports();
    for (int c = 0; c < CLIENTS; c++)
        restart(c);
}

int main(int argc, char **argv)
{
    unsigned long most = argc > 1 ? strtoul(argv[1], NULL, 10) : 1000000;
    unsigned long episodes = 0;

    seed = argc > 2 ? strtoull(argv[2], NULL, 10) : (uint64_t)time(NULL);
    printf("seed %llu\n", (unsigned long long)seed);
    chance = seed * 0x9E3779B97F4A7C15u + 1;
    while (steps < most) {
        new_world();
        for (uint32_t n = 1 + any(STEPS_EACH); n > 0; n--)
            step(1);
        quiet();
        episodes++;
    }
    printf("%lu steps, %lu messages: %lu commits, %lu snapshots begun, %lu lines, "
           "%lu deaths, %lu dropped from full queues, %lu damaged\n", steps,
           messages, commits, snapshots, lines, deaths, drops, damages);
    printf("of these %lu random\n%lu passed, 0 failed\n", episodes, episodes);
    return 0;
}
