/* bhtf-mqtt publish: the office. */
#include "commands.h"

#include "bhtf_delta.h"
#include "disk.h"
#include "link.h"
#include "log.h"
#include "office.h"
#include "sign.h"

#include <dirent.h>
#include <errno.h>
#include <fcntl.h>
#include <stdio.h>
#include <stdlib.h>
#include <string.h>
#include <sys/file.h>
#include <sys/inotify.h>
#include <sys/stat.h>
#include <unistd.h>

enum { IMAGE = OFFICE_PLACES,  /* a piece of memory of its own */
       LOOK = 500 };           /* milliseconds: when no event tells of a change */

struct publisher {
    const struct settings *settings;
    struct link link;
    struct office office;
    struct office_port port;
    struct memory memory;
    struct sign *key;
    char folder[3072];         /* FILE-mqtt: what it keeps */
    int lock, watch;
    int changed;               /* the file may have */
    struct stat seen;          /* as it was when it was read */
    int status;
};

/* ---- the store ---- */

static void path_of(const struct publisher *p, char to[4096], const char *name)
{
    snprintf(to, 4096, "%s/%s", p->folder, name);
}

static int port_save(void *with, const uint8_t state[OFFICE_STATE],
                     const uint8_t *image, uint32_t length)
{
    struct publisher *p = with;
    char path[4096];

    path_of(p, path, "state");
    if (disk_write(path, state, OFFICE_STATE, image, length, 1) == 0)
        return 0;
    log_trouble("%s: %s", path, strerror(errno));
    return -1;
}

static int port_put(void *with, const char *name, const uint8_t *bytes,
                    size_t size)
{
    struct publisher *p = with;
    char path[4096];

    path_of(p, path, name);
    if (disk_write(path, bytes, size, NULL, 0, 0) == 0)
        return 0;
    log_trouble("%s: %s", path, strerror(errno));
    return -1;
}

static size_t port_get(void *with, const char *name, uint8_t *to, size_t room)
{
    char path[4096];

    path_of(with, path, name);
    return disk_read(path, to, room);
}

static void port_drop(void *with, const char *name)
{
    char path[4096];

    path_of(with, path, name);
    unlink(path);
}

/* What a kill left behind is taken away. */
static void sweep(struct publisher *p)
{
    DIR *folder = opendir(p->folder);
    struct dirent *entry;

    while (folder != NULL && (entry = readdir(folder)) != NULL)
        if (!office_needs(&p->office, entry->d_name))
            port_drop(p, entry->d_name);
    if (folder != NULL)
        closedir(folder);
}

/* ---- the other actions ---- */

static void port_subscribe(void *with, const char *topic)
{
    link_subscribe(&((struct publisher *)with)->link, topic);
}

static void port_publish(void *with, const char *topic, const uint8_t *bytes,
                         size_t size)
{
    link_publish(&((struct publisher *)with)->link, topic, bytes, size);
}

static uint8_t *port_lend(void *with, unsigned place, size_t bytes)
{
    return memory_lend(&((struct publisher *)with)->memory, place, bytes);
}

static int port_make(void *with, const uint8_t *before,
                     const uint8_t *before_sum, const uint8_t *after,
                     uint32_t length, uint8_t *record, size_t room,
                     size_t *size)
{
    uint32_t number = bhtf_delta_make(before, after, length, before_sum, record,
                                      room, size);

    (void)with;
    if (number == BHTF_ACCEPTED)
        return 0;
    log_trouble("the change could not be made into a record: %s",
                bhtf_message(number));
    return -1;
}

static void port_sign(void *with, const uint8_t *head,
                      uint8_t signature[WIRE_SIGNATURE])
{
    struct publisher *p = with;

    sign_head(p->key, p->settings->prefix, head, signature);
}

static void port_random(void *with, uint8_t *bytes, size_t size)
{
    (void)with;
    link_random(bytes, size);
}

static void port_event(void *with, enum office_event event,
                       const struct wire_place *place, uint32_t detail)
{
    static const char *const reason[] = {
        "nothing was kept", "the file has another length",
        "broker or stations have states that are not known here",
        "took over from another office", "sequence numbers are used up"
    };
    struct publisher *p = with;
    unsigned long term = place->term, seq = place->seq, number = detail;
    char sum[LOG_SUM];

    log_sum(sum, place->sum);
    if (event == OFFICE_READY)
        log_event("ready: state %lu/%lu, sum %s", term, seq, sum);
    else if (event == OFFICE_MADE)
        log_event("state %lu/%lu, sum %s, record of %lu bytes", term, seq, sum,
                  number);
    else if (event == OFFICE_PUBLISHED)
        log_event("published %lu/%lu, sum %s", term, seq, sum);
    else if (event == OFFICE_NEW_LINE)
        log_event("new line %lu/%lu, sum %s: %s", term, seq, sum,
                  reason[detail]);
    else if (event == OFFICE_NEW_SNAPSHOT)
        log_event("snapshot of %lu/%lu, %lu bytes", term, seq, number);
    else if (event == OFFICE_REPEATED)
        log_event("published again what is behind %lu/%lu", term, number);
    else if (event == OFFICE_ELSEWHERE)
        log_event("a station follows another office, term %lu", number);
    if (event == OFFICE_RIVAL) {
        log_trouble("another office publishes this file: --take-over if it must "
                    "not any more");
        p->status = REFUSED;
    } else if (event == OFFICE_TROUBLE) {
        p->status = TROUBLE;
    }
}

/* ---- the file ---- */

static void watch_file(struct publisher *p)
{
    char folder[4096];
    char *slash;

    p->watch = inotify_init1(IN_NONBLOCK | IN_CLOEXEC);
    snprintf(folder, sizeof folder, "%s", p->settings->path);
    slash = strrchr(folder, '/');
    if (slash == NULL)
        snprintf(folder, sizeof folder, ".");
    else
        slash[slash == folder] = '\0';
    if (p->watch >= 0)
        inotify_add_watch(p->watch, folder, IN_CLOSE_WRITE | IN_MODIFY |
                                                IN_MOVED_TO | IN_DELETE);
}

static void drain_watch(struct publisher *p)
{
    char bytes[4096];

    while (read(p->watch, bytes, sizeof bytes) > 0)
        ;
}

static int is_as_seen(const struct publisher *p)
{
    struct stat st;

    return stat(p->settings->path, &st) == 0 &&
           st.st_mtim.tv_sec == p->seen.st_mtim.tv_sec &&
           st.st_mtim.tv_nsec == p->seen.st_mtim.tv_nsec &&
           st.st_ino == p->seen.st_ino && st.st_size == p->seen.st_size;
}

/* Takes the image under the reader's lock, and lets go of it before anything is
 * done with it. */
static int read_file(struct publisher *p, uint32_t *length)
{
    struct bhtf_file_error why;
    bhtf_file *file = bhtf_file_open(p->settings->path, NULL, &why);
    const uint8_t *image;
    uint8_t *copy;
    size_t size;

    if (file == NULL) {
        log_trouble("%s", why.words);
        return -1;
    }
    stat(p->settings->path, &p->seen);
    image = bhtf_file_image(file, &size);
    copy = memory_lend(&p->memory, IMAGE, size);
    if (copy != NULL)
        memcpy(copy, image, size);
    bhtf_file_close(file);
    *length = (uint32_t)size;
    return copy != NULL ? 0 : -1;
}

static void look(struct publisher *p)
{
    uint32_t length;

    p->changed = 0;
    if (read_file(p, &length) == 0)
        office_change(&p->office, memory_lend(&p->memory, IMAGE, 0), length);
}

/* ---- from the broker ---- */

static void on_connected(void *with)
{
    struct publisher *p = with;

    p->changed = 1;
    office_connected(&p->office);
}

static void on_message(void *with, const char *topic, const uint8_t *bytes,
                       size_t size)
{
    office_message(&((struct publisher *)with)->office, topic, bytes, size);
}

/* ---- beginning ---- */

static int open_store(struct publisher *p)
{
    char path[4096];

    snprintf(p->folder, sizeof p->folder, "%s-mqtt", p->settings->path);
    if (mkdir(p->folder, 0777) != 0 && errno != EEXIST) {
        log_trouble("%s: %s", p->folder, strerror(errno));
        return TROUBLE;
    }
    path_of(p, path, "lock");
    p->lock = open(path, O_RDWR | O_CREAT | O_CLOEXEC, 0666);
    if (p->lock < 0) {
        log_trouble("%s: %s", path, strerror(errno));
        return TROUBLE;
    }
    if (flock(p->lock, LOCK_EX | LOCK_NB) == 0)
        return DONE;
    log_trouble("%s: is published by another process already", p->settings->path);
    return REFUSED;
}

static void begin_office(struct publisher *p)
{
    char path[4096];
    size_t size;
    uint8_t *bytes, *shadow;

    path_of(p, path, "state");
    size = disk_read(path, NULL, 0);
    bytes = memory_lend(&p->memory, IMAGE, size + 1);
    if (size <= OFFICE_STATE || bytes == NULL ||
        disk_read(path, bytes, size) != size) {
        office_begin(&p->office, &p->port, NULL, 0);
        return;
    }
    shadow = memory_lend(&p->memory, OFFICE_SHADOW, size - OFFICE_STATE);
    memcpy(shadow, bytes + OFFICE_STATE, size - OFFICE_STATE);
    office_begin(&p->office, &p->port, bytes,
                 (uint32_t)(size - OFFICE_STATE));
    sweep(p);
}

static void set_ports(struct publisher *p)
{
    const struct settings *s = p->settings;

    p->port = (struct office_port){
        .with = p, .chunk = (uint32_t)s->chunk, .stretch = (uint32_t)s->stretch,
        .take_over = s->take_over, .again = 256, .subscribe = port_subscribe,
        .publish = port_publish, .lend = port_lend, .save = port_save,
        .put = port_put, .get = port_get, .drop = port_drop, .make = port_make,
        .sign = p->key != NULL ? port_sign : NULL, .random = port_random,
        .event = port_event };
    p->link.settings = s;
    p->link.will = "up/office";
    p->link.with = p;
    p->link.connected = on_connected;
    p->link.message = on_message;
}

/* Until it is asked to end, or cannot go on. */
static int go_on(struct publisher *p)
{
    long long end = link_now() + p->settings->wait * 1000ll;

    log_notify("READY=1");  /* with no broker in reach, too: a boot goes on */
    while (!link_ending && p->status == DONE && p->link.status == DONE) {
        if (link_wait(&p->link, p->watch, LOOK)) {
            drain_watch(p);
            p->changed = 1;
        }
        if (p->office.ready && (p->changed || !is_as_seen(p)))
            look(p);
        if (!office_published(&p->office) || p->changed) {
            if (p->settings->once && link_now() > end) {
                log_trouble("the broker did not bring the head back within %ld s:"
                            " not published", p->settings->wait);
                return TROUBLE;
            }
            continue;
        }
        if (p->settings->once)
            return DONE;
    }
    return p->status != DONE ? p->status : p->link.status;
}

int run_publish(const struct settings *settings)
{
    struct publisher *p = calloc(1, sizeof *p);
    int status;

    if (p == NULL)
        return TROUBLE;
    p->settings = settings;
    p->watch = -1;
    if (settings->sign != NULL &&
        (p->key = sign_private(settings->sign)) == NULL)
        return MISCONFIGURED;
    set_ports(p);
    status = open_store(p);
    if (status == DONE) {
        begin_office(p);
        status = link_open(&p->link);
    }
    if (status == DONE) {
        watch_file(p);
        status = go_on(p);
        log_notify("STOPPING=1");
        log_event("ends; %llu bytes were published, %llu heard", p->link.sent,
                  p->link.received);
        link_close(&p->link);
    }
    memory_free(&p->memory);
    free(p);
    return status;
}
