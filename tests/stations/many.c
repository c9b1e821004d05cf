/* An office and many stations in one process, over a real broker, with images in
 * memory: how long so many changes take, how many bytes that is, and whether one
 * was missed. Status 1: a copy is not the office's, or a station missed a state.
 *     many PORT STATIONS CHANGES */
#include "bhtf_delta.h"
#include "disk.h"
#include "link.h"
#include "log.h"
#include "office.h"
#include "squash.h"
#include "station.h"
#include "sum.h"

#include <stdio.h>
#include <stdlib.h>
#include <string.h>

enum { LENGTH = 128 * 1024 };

struct one {
    struct settings settings;
    struct link link;
    struct station station;
    struct station_port port;
    struct memory memory;
    char name[16], id[64], will[24];
    uint8_t *copy;
    uint32_t length;
    unsigned long commits, gaps;
    uint32_t last;
};

static struct one *one;
static int ones;
static struct office office;
static struct office_port office_port;
static struct link office_link;
static struct settings office_settings;
static struct memory office_memory;
static struct { char name[OFFICE_NAME]; uint8_t *bytes; size_t size; } *thing;
static size_t things;

/* ---- the office: its store is memory ---- */

static void o_subscribe(void *w, const char *t)
{
    (void)w;
    link_subscribe(&office_link, t);
}

static void o_publish(void *w, const char *t, const uint8_t *b, size_t n)
{
    (void)w;
    link_publish(&office_link, t, b, n);
}

static uint8_t *o_lend(void *w, unsigned p, size_t n)
{
    (void)w;
    return memory_lend(&office_memory, p, n);
}

static int o_save(void *w, const uint8_t *s, const uint8_t *i, uint32_t n)
{
    (void)w;
    (void)s;
    (void)i;
    (void)n;
    return 0;
}

static size_t find(const char *name)
{
    size_t i = things;

    while (i > 0 && strcmp(thing[i - 1].name, name) != 0)
        i--;
    return i;  /* its number plus one */
}

static int o_put(void *w, const char *name, const uint8_t *b, size_t n)
{
    (void)w;
    thing = realloc(thing, (things + 1) * sizeof *thing);
    snprintf(thing[things].name, OFFICE_NAME, "%s", name);
    thing[things].bytes = malloc(n);
    memcpy(thing[things].bytes, b, n);
    thing[things++].size = n;
    return 0;
}

static size_t o_get(void *w, const char *name, uint8_t *to, size_t room)
{
    size_t i = find(name);

    (void)w;
    if (i == 0)
        return 0;
    if (to != NULL && thing[i - 1].size <= room)
        memcpy(to, thing[i - 1].bytes, thing[i - 1].size);
    return thing[i - 1].size;
}

static void o_drop(void *w, const char *name)
{
    size_t i = find(name);

    (void)w;
    if (i > 0) {
        free(thing[i - 1].bytes);
        thing[i - 1] = thing[--things];
    }
}

static int o_make(void *w, const uint8_t *before, const uint8_t *before_sum,
                  const uint8_t *after, uint32_t length, uint8_t *record,
                  size_t room, size_t *size)
{
    static struct squash_pair pair[4096];
    uint8_t sum[WIRE_SUM];
    size_t n = 0;

    (void)w;
    (void)room;
    for (uint32_t i = 0; i < length; i++)
        if (before[i] != after[i]) {
            pair[n].at = i;
            pair[n++].size = 1;
        }
    sum_of(after, length, sum);
    *size = squash_record(record, pair, squash_pairs(pair, n), after, length,
                          before_sum, sum);
    return 0;
}

static void o_random(void *w, uint8_t *b, size_t n)
{
    (void)w;
    link_random(b, n);
}

static void o_event(void *w, enum office_event e, const struct wire_place *p,
                    uint32_t d)
{
    (void)w;
    (void)e;
    (void)p;
    (void)d;
}

static void o_connected(void *w)
{
    (void)w;
    office_connected(&office);
}

static void o_message(void *w, const char *t, const uint8_t *b, size_t n)
{
    (void)w;
    office_message(&office, t, b, n);
}

/* ---- a station: its copy is memory ---- */

static void s_subscribe(void *w, const char *t)
{
    link_subscribe(&((struct one *)w)->link, t);
}

static void s_unsubscribe(void *w, const char *t)
{
    link_unsubscribe(&((struct one *)w)->link, t);
}

static void s_publish(void *w, const char *t, const uint8_t *b, size_t n)
{
    link_publish(&((struct one *)w)->link, t, b, n);
}

static uint8_t *s_lend(void *w, unsigned p, size_t n)
{
    return memory_lend(&((struct one *)w)->memory, p, n);
}

static int s_load(void *w, uint8_t *image, uint32_t length)
{
    struct one *s = w;

    if (length != s->length)
        return -1;
    memcpy(image, s->copy, length);
    return 0;
}

static uint32_t s_commit(void *w, const uint8_t *image, uint32_t length,
                         const struct wire_place *place)
{
    struct one *s = w;

    if (image != NULL)
        memcpy(s->copy, image, length);
    s->length = length;
    s->gaps += s->commits > 0 && place->seq != s->last + 1;
    s->last = place->seq;
    s->commits++;
    return WIRE_FINE;
}

static void s_event(void *w, enum station_event e, const struct wire_place *p,
                    uint32_t d)
{
    (void)w;
    (void)e;
    (void)p;
    (void)d;
}

static void s_connected(void *w)
{
    station_connected(&((struct one *)w)->station);
}

static void s_message(void *w, const char *t, const uint8_t *b, size_t n)
{
    station_message(&((struct one *)w)->station, t, b, n);
}

/* ---- all of them ---- */

static void settings_for(struct settings *s, long port, char *id)
{
    s->host = "127.0.0.1";
    s->port = port;
    s->keepalive = 60;
    s->backoff = 1;
    s->id = id;
    snprintf(s->prefix, sizeof s->prefix, "bhtf/1/many/of-%d/", ones);
}

static void begin(long port)
{
    static char id[] = "many/office";

    settings_for(&office_settings, port, id);
    office_link = (struct link){ .settings = &office_settings,
                                 .connected = o_connected,
                                 .message = o_message };
    office_port = (struct office_port){
        .chunk = 4096, .stretch = 16384, .again = 256, .subscribe = o_subscribe,
        .publish = o_publish, .lend = o_lend, .save = o_save, .put = o_put,
        .get = o_get, .drop = o_drop, .make = o_make, .random = o_random,
        .event = o_event };
    office_begin(&office, &office_port, NULL, 0);
    link_open(&office_link);
    for (int i = 0; i < ones; i++) {
        struct one *s = &one[i];

        snprintf(s->name, sizeof s->name, "s%d", i);
        snprintf(s->id, sizeof s->id, "many/s%d", i);
        settings_for(&s->settings, port, s->id);
        s->copy = malloc(LENGTH);
        s->link = (struct link){ .settings = &s->settings, .with = s,
                                 .connected = s_connected,
                                 .message = s_message };
        s->port = (struct station_port){
            .with = s, .window = 8, .again = 256, .longest = LENGTH,
            .subscribe = s_subscribe, .unsubscribe = s_unsubscribe,
            .publish = s_publish, .lend = s_lend, .load = s_load,
            .commit = s_commit, .event = s_event };
        station_begin(&s->station, &s->port, s->name, NULL, 0, NULL);
        link_open(&s->link);
    }
}

static void turn(void)
{
    link_wait(&office_link, -1, 0);
    for (int i = 0; i < ones; i++)
        link_wait(&one[i].link, -1, 0);
}

static int all_equal(void)
{
    for (int i = 0; i < ones; i++)
        if (one[i].station.at.seq != office.at.seq ||
            one[i].station.at.term != office.at.term)
            return 0;
    return office_published(&office);
}

/* Bytes of messages to all stations, and from them. */
static void count(unsigned long long *down, unsigned long long *up)
{
    *down = *up = 0;
    for (int i = 0; i < ones; i++) {
        *down += one[i].link.received;
        *up += one[i].link.sent;
    }
}

/* Who keeps them waiting. */
static void tell_unequal(void)
{
    int behind = 0;

    for (int i = 0; i < ones; i++)
        behind += one[i].station.at.seq != office.at.seq ||
                  one[i].station.at.term != office.at.term;
    printf("FAILED: %d stations are behind; the head %s back\n", behind,
           office_published(&office) ? "came" : "did not come");
}

/* Turns until all are equal: 0 if that takes too long. */
static int settle(void)
{
    long long end = link_now() + 60000;

    while (!all_equal() && link_now() < end)
        turn();
    if (!all_equal())
        tell_unequal();
    return all_equal();
}

/* The office, to which the broker then has a word of each station to say. */
static int connect_again(void)
{
    link_close(&office_link);
    office.ready = 0;
    return link_open(&office_link) == DONE && settle();
}

int main(int argc, char **argv)
{
    long port = strtol(argv[1], NULL, 10), changes = strtol(argv[3], NULL, 10);
    uint8_t *image = calloc(1, LENGTH);
    unsigned long long down, up, down_first, up_first;
    unsigned long gaps = 0;
    long long started, took;

    (void)argc;
    log_level = LOG_QUIET;
    ones = (int)strtol(argv[2], NULL, 10);
    one = calloc((size_t)ones, sizeof *one);
    link_random(image, LENGTH / 4);
    begin(port);
    started = link_now();
    while (!office.ready && !office.stopped && link_now() < started + 60000)
        turn();
    if (!office.ready) {
        printf("FAILED: the office is not ready\n");
        return 1;
    }
    office_change(&office, image, LENGTH);
    if (!settle())
        return 1;
    count(&down_first, &up_first);
    printf("%d new stations: %lld ms, %llu bytes to each, %llu from it\n", ones,
           link_now() - started, down_first / (unsigned)ones,
           up_first / (unsigned)ones);
    fflush(stdout);
    started = link_now();
    for (long i = 0; i < changes; i++) {
        uint8_t text[60];

        link_random(text, sizeof text);
        memcpy(image + (i * 523) % (LENGTH - 60), text, sizeof text);
        office_change(&office, image, LENGTH);
        turn();
    }
    if (!settle())
        return 1;
    took = link_now() - started;
    for (int i = 0; i < ones; i++) {
        gaps += one[i].gaps;
        if (memcmp(one[i].copy, image, LENGTH) != 0)
            return 1;
    }
    count(&down, &up);
    if (!connect_again())
        return 1;
    printf("%ld changes to %d stations: %lld ms, %lu gaps, %llu bytes to each, %llu "
           "from it\n", changes, ones, took, gaps,
           (down - down_first) / (unsigned)ones, (up - up_first) / (unsigned)ones);
    return gaps > 0;
}
