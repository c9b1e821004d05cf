/* bhtf-mqtt status: which station has which state. */
#include "commands.h"

#include "link.h"
#include "log.h"
#include "wire.h"

#include <stdio.h>
#include <stdlib.h>
#include <string.h>

enum { MOST = 4096 };  /* stations that are shown */

struct seen {
    char name[WIRE_STATION + 1];
    int has_at, up;
    struct wire_at at;
};

struct look {
    struct link link;
    struct wire_head head;
    int has_head, office_up;
    size_t count;
    struct seen station[MOST];
};

static struct seen *station_of(struct look *k, const char *name)
{
    size_t i = 0;

    while (i < k->count && strcmp(k->station[i].name, name) != 0)
        i++;
    if (i == MOST || !wire_word(name))
        return NULL;
    if (i == k->count) {
        k->count++;
        snprintf(k->station[i].name, sizeof k->station[i].name, "%s", name);
    }
    return &k->station[i];
}

/* The head is asked for last, and a broker answers in turn. */
static void on_connected(void *with)
{
    struct look *k = with;

    link_subscribe(&k->link, "at/+");
    link_subscribe(&k->link, "up/+");
    link_subscribe(&k->link, "head");
}

static void on_message(void *with, const char *topic, const uint8_t *bytes,
                       size_t size)
{
    struct look *k = with;
    struct seen *s;

    if (strcmp(topic, "head") == 0) {
        k->has_head = wire_head_get(&k->head, bytes, size) ? 1 : -1;
    } else if (strcmp(topic, "up/office") == 0) {
        k->office_up = size > 0 && bytes[0] == '1';
    } else if (strncmp(topic, "up/", 3) == 0) {
        s = station_of(k, topic + 3);
        if (s != NULL)
            s->up = size > 0 && bytes[0] == '1';
    } else if (strncmp(topic, "at/", 3) == 0) {
        s = station_of(k, topic + 3);
        if (s != NULL)
            s->has_at = wire_at_get(&s->at, bytes, size);
    }
}

static int by_name(const void *a, const void *b)
{
    return strcmp(((const struct seen *)a)->name, ((const struct seen *)b)->name);
}

/* Other than 0 if the station is behind. */
static int show(const struct look *k, const struct seen *s)
{
    const struct wire_place *head = &k->head.place, *at = &s->at.place;
    char sum[LOG_SUM];

    printf("%-16s %-5s", s->name, s->up ? "up" : "down");
    if (!s->has_at || at->term == 0) {
        puts(" no copy yet");
        return 1;
    }
    printf(" %lu/%lu sum %s ", (unsigned long)at->term, (unsigned long)at->seq,
           log_sum(sum, at->sum));
    if (wire_same(at, head)) {
        puts("equal");
        return 0;
    }
    if (at->term == head->term && !wire_rivals(at, head) && at->seq < head->seq)
        printf("%lu behind", (unsigned long)(head->seq - at->seq));
    else
        printf("of another line or changed");
    if (s->at.refusal != WIRE_FINE)
        printf("; refused: %s", wire_words(s->at.refusal));
    putchar('\n');
    return 1;
}

static int show_all(struct look *k)
{
    const struct wire_place *head = &k->head.place;
    int behind = 0;
    char sum[LOG_SUM];

    qsort(k->station, k->count, sizeof *k->station, by_name);
    printf("%-16s %-5s %lu/%lu sum %s %lu bytes\n", "office",
           k->office_up ? "up" : "down", (unsigned long)head->term,
           (unsigned long)head->seq, log_sum(sum, head->sum),
           (unsigned long)k->head.length);
    for (size_t i = 0; i < k->count; i++)
        behind += show(k, &k->station[i]);
    printf("%lu station%s, %d behind\n", (unsigned long)k->count,
           k->count == 1 ? "" : "s", behind);
    return behind > 0 ? REFUSED : DONE;
}

int run_status(const struct settings *settings)
{
    struct look *k = calloc(1, sizeof *k);
    long long end = link_now() + settings->wait * 1000ll;
    int status;

    if (k == NULL)
        return TROUBLE;
    if (log_level == LOG_EVENTS)
        log_level = LOG_QUIET;
    k->link.settings = settings;
    k->link.with = k;
    k->link.connected = on_connected;
    k->link.message = on_message;
    status = link_open(&k->link);
    while (status == DONE && k->has_head == 0 && !link_ending) {
        link_wait(&k->link, -1, 200);
        status = k->link.status;
        if (status == DONE && k->has_head == 0 && link_now() > end) {
            log_trouble("no head came within %ld s", settings->wait);
            status = TROUBLE;
        }
    }
    if (status == DONE && k->has_head < 0) {
        log_trouble("the head is damaged");
        status = TROUBLE;
    }
    if (status == DONE && k->has_head > 0)
        status = show_all(k);
    link_close(&k->link);
    free(k);
    return status;
}
