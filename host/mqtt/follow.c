/* bhtf-mqtt follow: a station. */
#include "commands.h"

#include "bhtf_delta.h"
#include "disk.h"
#include "link.h"
#include "log.h"
#include "sign.h"
#include "station.h"
#include "sum.h"

#include <dirent.h>
#include <errno.h>
#include <stdio.h>
#include <stdlib.h>
#include <string.h>
#include <sys/stat.h>
#include <unistd.h>

enum { PLACE = 48,              /* bytes of a place */
       KEPT = 8 + 2 * PLACE + WIRE_CHECK };  /* of the file beside the copy */

struct follower {
    const struct settings *settings;
    struct link link;
    struct station station;
    struct station_port port;
    struct memory memory;
    struct sign *key;
    char place[4096];           /* COPY-place: where the copy is */
    char parts[3072];           /* COPY-parts: of a snapshot on its way */
    uint32_t refusal;           /* the last one */
};

/* ---- the place beside the copy: what it is, and what it is to become; the
 * copy's sum decides which of the two it is ---- */

static void put_place(uint8_t to[PLACE], const struct wire_place *p)
{
    memcpy(to, p->line, WIRE_LINE);
    wire_put_u32(to + 8, p->term);
    wire_put_u32(to + 12, p->seq);
    memcpy(to + 16, p->sum, WIRE_SUM);
}

static void get_place(struct wire_place *p, const uint8_t from[PLACE])
{
    memcpy(p->line, from, WIRE_LINE);
    p->term = wire_u32(from + 8);
    p->seq = wire_u32(from + 12);
    memcpy(p->sum, from + 16, WIRE_SUM);
}

static const uint8_t place_magic[8] = { 'B', 'H', 'T', 'F', 'p', 1, 0, 0 };

static int keep_place(struct follower *f, const struct wire_place *is,
                      const struct wire_place *next, int sync)
{
    uint8_t bytes[KEPT], sum[WIRE_SUM];

    memcpy(bytes, place_magic, sizeof place_magic);
    put_place(bytes + 8, is);
    put_place(bytes + 8 + PLACE, next);
    sum_of(bytes, KEPT - WIRE_CHECK, sum);
    memcpy(bytes + KEPT - WIRE_CHECK, sum, WIRE_CHECK);
    if (disk_write(f->place, bytes, KEPT, NULL, 0, sync) == 0)
        return 0;
    log_trouble("%s: %s", f->place, strerror(errno));
    return -1;
}

/* The place of a copy with this sum; 0 if none is known. */
static int find_place(struct follower *f, struct wire_place *at,
                      const uint8_t *sum)
{
    uint8_t bytes[KEPT], own[WIRE_SUM];
    struct wire_place next;

    if (disk_read(f->place, bytes, KEPT) != KEPT ||
        memcmp(bytes, place_magic, sizeof place_magic) != 0)
        return 0;
    sum_of(bytes, KEPT - WIRE_CHECK, own);
    if (memcmp(own, bytes + KEPT - WIRE_CHECK, WIRE_CHECK) != 0)
        return 0;
    get_place(at, bytes + 8);
    get_place(&next, bytes + 8 + PLACE);
    if (sum != NULL && memcmp(sum, next.sum, WIRE_SUM) == 0)
        *at = next;
    return at->term > 0;
}

/* ---- the copy ---- */

static const struct bhtf_file_how to_write = {
    BHTF_FILE_WRITE, BHTF_FILE_FOREVER, NULL, NULL
};

static int port_load(void *with, uint8_t *image, uint32_t length)
{
    struct follower *f = with;
    struct bhtf_file_error why;
    bhtf_file *file = bhtf_file_open(f->settings->path, NULL, &why);
    const uint8_t *bytes;
    size_t size;

    if (file == NULL) {
        log_trouble("%s", why.words);
        return -1;
    }
    bytes = bhtf_file_image(file, &size);
    if (size == length)
        memcpy(image, bytes, size);
    bhtf_file_close(file);
    return size == length ? 0 : -1;
}

/* An image of the same length goes through the journal: only what differs is
 * written. */
static uint32_t change_copy(struct follower *f, const uint8_t *image,
                            uint32_t length)
{
    struct bhtf_file_error why;
    bhtf_file *file = bhtf_file_open(f->settings->path, &to_write, &why);
    uint32_t number;
    uint8_t *batch;
    size_t size;

    if (file == NULL) {
        log_trouble("%s", why.words);
        return WIRE_DISK;
    }
    number = bhtf_file_begin(file);
    batch = number == BHTF_ACCEPTED ? bhtf_file_batch_image(file, &size) : NULL;
    if (batch != NULL && size == length) {
        memcpy(batch, image, length);
        number = bhtf_file_commit(file);
    }
    if (batch == NULL || size != length || number != BHTF_ACCEPTED) {
        log_trouble("%s: %s", f->settings->path, bhtf_file_error(file)->words);
        bhtf_file_close(file);
        return WIRE_DISK;
    }
    return bhtf_file_close(file) == BHTF_ACCEPTED ? WIRE_FINE : WIRE_DISK;
}

static uint32_t put_copy(struct follower *f, const uint8_t *image,
                         uint32_t length)
{
    struct bhtf_file_options options = BHTF_FILE_OPTIONS;
    struct bhtf_file_error why;

    options.wait = to_write.wait;
    options.give_up = to_write.give_up;
    if (bhtf_file_put(f->settings->path, image, length, &options, &why) ==
        BHTF_ACCEPTED)
        return WIRE_FINE;
    log_trouble("%s", why.words);
    return WIRE_DISK;
}

/* Somebody else may have changed the copy since it was looked at. */
static int is_as_known(struct follower *f)
{
    struct bhtf_file_error why;
    bhtf_file *file = bhtf_file_open(f->settings->path, NULL, &why);
    uint8_t sum[WIRE_SUM];
    int same;

    if (file == NULL)
        return 0;
    same = bhtf_file_sum(file, sum) == BHTF_ACCEPTED &&
           memcmp(sum, f->station.sum, WIRE_SUM) == 0;
    bhtf_file_close(file);
    return same;
}

static void drop_parts(struct follower *f)
{
    DIR *folder = opendir(f->parts);
    struct dirent *entry;
    char path[4096];

    if (folder == NULL)
        return;
    while ((entry = readdir(folder)) != NULL) {
        snprintf(path, sizeof path, "%s/%s", f->parts, entry->d_name);
        unlink(path);
    }
    closedir(folder);
    rmdir(f->parts);
}

static uint32_t port_commit(void *with, const uint8_t *image, uint32_t length,
                            const struct wire_place *place)
{
    struct follower *f = with;
    const struct station *s = &f->station;
    uint32_t refusal = WIRE_FINE;

    if (image != NULL) {
        if (s->length > 0 && !f->settings->replace && !is_as_known(f))
            return WIRE_CHANGED;
        if (keep_place(f, &s->at, place, 1) != 0)
            return WIRE_DISK;
        refusal = s->length == length ? change_copy(f, image, length)
                                      : put_copy(f, image, length);
    }
    if (refusal != WIRE_FINE)
        return refusal;
    if (keep_place(f, place, place, image == NULL) != 0)
        return WIRE_DISK;
    drop_parts(f);
    return WIRE_FINE;
}

/* ---- stretches of a snapshot, kept over a restart ---- */

static void part_path(const struct follower *f, char path[4096],
                      const uint8_t *name)
{
    size_t n = (size_t)snprintf(path, 4096, "%s/", f->parts);

    for (size_t i = 0; i < WIRE_NAME; i++)
        n += (size_t)snprintf(path + n, 4096 - n, "%02x", name[i]);
}

static void port_keep_put(void *with, const uint8_t *name, const uint8_t *bytes,
                          size_t size)
{
    struct follower *f = with;
    char path[4096];

    mkdir(f->parts, 0777);
    part_path(f, path, name);
    (void)disk_write(path, bytes, size, NULL, 0, 0);
}

static int port_keep_get(void *with, const uint8_t *name, uint8_t *bytes,
                         size_t size)
{
    char path[4096];

    part_path(with, path, name);
    return disk_read(path, bytes, size) == size;
}

/* ---- the other actions ---- */

static void port_subscribe(void *with, const char *topic)
{
    link_subscribe(&((struct follower *)with)->link, topic);
}

static void port_unsubscribe(void *with, const char *topic)
{
    link_unsubscribe(&((struct follower *)with)->link, topic);
}

static void port_publish(void *with, const char *topic, const uint8_t *bytes,
                         size_t size)
{
    link_publish(&((struct follower *)with)->link, topic, bytes, size);
}

static uint8_t *port_lend(void *with, unsigned place, size_t bytes)
{
    return memory_lend(&((struct follower *)with)->memory, place, bytes);
}

static int port_verify(void *with, const uint8_t *head,
                       const uint8_t *signature)
{
    struct follower *f = with;

    return sign_verify(f->key, f->settings->prefix, head, signature);
}

static void port_event(void *with, enum station_event event,
                       const struct wire_place *place, uint32_t detail)
{
    struct follower *f = with;
    unsigned long term = place->term, seq = place->seq, number = detail;
    char sum[LOG_SUM];

    if (event == STATION_EQUAL)
        log_event("%s is %lu/%lu, sum %s", f->settings->path, term, seq,
                  log_sum(sum, place->sum));
    else if (event == STATION_BEHIND)
        log_event("%lu states behind %lu/%lu", number, term, seq);
    else if (event == STATION_SNAPSHOT)
        log_event("fetches the snapshot of %lu/%lu, an image of %lu bytes", term,
                  seq, number);
    else if (event == STATION_REFUSED && detail != f->refusal)
        log_trouble("refused: %s", wire_words(detail));
    f->refusal = event == STATION_REFUSED ? detail : WIRE_FINE;
}

static void on_connected(void *with)
{
    struct follower *f = with;

    link_publish(&f->link, f->link.will, (const uint8_t *)"1", 1);
    station_connected(&f->station);
}

static void on_message(void *with, const char *topic, const uint8_t *bytes,
                       size_t size)
{
    station_message(&((struct follower *)with)->station, topic, bytes, size);
}

/* ---- beginning ---- */

static void set_ports(struct follower *f)
{
    static char will[WIRE_TOPIC];
    const struct settings *s = f->settings;

    f->port = (struct station_port){
        .with = f, .window = (unsigned)s->window, .again = 256,
        .longest = (uint32_t)s->longest, .replace = s->replace,
        .subscribe = port_subscribe, .unsubscribe = port_unsubscribe,
        .publish = port_publish, .lend = port_lend, .load = port_load,
        .commit = port_commit, .verify = f->key != NULL ? port_verify : NULL,
        .keep_put = port_keep_put, .keep_get = port_keep_get,
        .event = port_event };
    snprintf(will, sizeof will, "up/%s", s->name);
    f->link.settings = s;
    f->link.will = will;
    f->link.with = f;
    f->link.connected = on_connected;
    f->link.message = on_message;
}

/* What the copy is; one that was not finished is finished first. */
static int begin_station(struct follower *f)
{
    const char *path = f->settings->path;
    struct bhtf_file_error why;
    struct wire_place at;
    uint8_t sum[WIRE_SUM];
    size_t length = 0;
    int placed;

    if (access(path, F_OK) == 0) {
        bhtf_file *file = bhtf_file_open(path, &to_write, &why);

        if (file == NULL || bhtf_file_sum(file, sum) != BHTF_ACCEPTED) {
            log_trouble("%s", file == NULL ? why.words
                                           : bhtf_file_error(file)->words);
            return TROUBLE;
        }
        bhtf_file_image(file, &length);
        bhtf_file_close(file);
    }
    placed = find_place(f, &at, length > 0 ? sum : NULL);
    station_begin(&f->station, &f->port, f->settings->name,
                  placed ? &at : NULL, (uint32_t)length, sum);
    return DONE;
}

/* These do not go away by themselves. */
static int is_final(uint32_t refusal)
{
    return refusal == WIRE_CHANGED || refusal == WIRE_TOO_LARGE;
}

static int go_on(struct follower *f)
{
    long long end = link_now() + f->settings->wait * 1000ll;

    log_notify("READY=1");  /* with no broker in reach, too: a boot goes on */
    while (!link_ending && f->link.status == DONE) {
        link_wait(&f->link, -1, 500);
        if (is_final(f->refusal))
            return REFUSED;
        if (station_equal(&f->station)) {
            if (f->settings->once)
                return DONE;
        } else if (f->settings->once && link_now() > end) {
            log_trouble("not equal within %ld s", f->settings->wait);
            return f->refusal != WIRE_FINE ? REFUSED : TROUBLE;
        }
    }
    return f->link.status;
}

int run_follow(const struct settings *settings)
{
    struct follower *f = calloc(1, sizeof *f);
    int status;

    if (f == NULL)
        return TROUBLE;
    f->settings = settings;
    snprintf(f->place, sizeof f->place, "%s-place", settings->path);
    snprintf(f->parts, sizeof f->parts, "%s-parts", settings->path);
    if (settings->verify != NULL &&
        (f->key = sign_public(settings->verify)) == NULL)
        return MISCONFIGURED;
    set_ports(f);
    status = begin_station(f);
    if (status == DONE)
        status = link_open(&f->link);
    if (status == DONE) {
        status = go_on(f);
        log_notify("STOPPING=1");
        log_event("ends; %llu bytes were heard, %llu published",
                  f->link.received, f->link.sent);
        link_close(&f->link);
    }
    memory_free(&f->memory);
    free(f);
    return status;
}
