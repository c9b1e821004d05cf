/* follow_mqtt.c - a station in some 150 lines: the protocol's core (host/mqtt) with
 * a copy in memory, as firmware would have it. What stands for the radio here is
 * libmosquitto; for the flash a file, in which the copy's place stands in front of
 * its image.
 *     cc -D_DEFAULT_SOURCE -DWITH_ZSTD -Ihost/mqtt -Ihost/include follow_mqtt.c \
 *         wire.c object.c station.c sum.c -lbhtf -lmosquitto -lzstd
 *     ./a.out HOST PORT bhtf/1/SITE/FILE/ NAME FLASH    prints each state's sum */
#include "station.h"
#include "sum.h"

#include <mosquitto.h>
#include <stdio.h>
#include <stdlib.h>
#include <string.h>
#include <unistd.h>

static struct station station;
static struct mosquitto *mosq;
static const char *prefix, *flash;
static uint8_t copy[16 << 20];                 /* the longest that is taken */
static uint32_t copy_length;
static uint8_t *piece[STATION_PLACES];         /* memory that is lent */
static size_t piece_size[STATION_PLACES];

static const char *full(const char *topic)
{
    static char name[256];

    snprintf(name, sizeof name, "%s%s", prefix, topic);
    return name;
}

static void ask(void *with, const char *topic)
{
    (void)with;
    mosquitto_subscribe(mosq, NULL, full(topic), 1);
}

static void no_more(void *with, const char *topic)
{
    (void)with;
    mosquitto_unsubscribe(mosq, NULL, full(topic));
}

static void say(void *with, const char *topic, const uint8_t *bytes, size_t size)
{
    (void)with;
    mosquitto_publish(mosq, NULL, full(topic), (int)size, bytes, 1, true);
}

static uint8_t *lend(void *with, unsigned place, size_t bytes)
{
    uint8_t *more;

    (void)with;
    if (bytes > piece_size[place]) {
        more = realloc(piece[place], bytes);
        if (more == NULL)
            return NULL;
        piece[place] = more;
        piece_size[place] = bytes;
    }
    return piece[place];
}

static int load(void *with, uint8_t *image, uint32_t length)
{
    (void)with;
    if (length != copy_length)
        return -1;
    memcpy(image, copy, length);
    return 0;
}

/* Place and image together, whole or not at all. */
static int write_flash(const uint8_t *image, uint32_t length,
                       const struct wire_place *place)
{
    char next[4096];
    FILE *file;
    int good;

    snprintf(next, sizeof next, "%s.new", flash);
    file = fopen(next, "wb");
    if (file == NULL)
        return 0;
    good = fwrite(place, sizeof *place, 1, file) == 1 &&
           fwrite(image, 1, length, file) == length && fflush(file) == 0 &&
           fsync(fileno(file)) == 0;
    return fclose(file) == 0 && good && rename(next, flash) == 0;
}

/* What the flash has: other than 0 if it has a copy. */
static int read_flash(struct wire_place *place)
{
    FILE *file = fopen(flash, "rb");

    if (file == NULL)
        return 0;
    if (fread(place, sizeof *place, 1, file) == 1)
        copy_length = (uint32_t)fread(copy, 1, sizeof copy, file);
    fclose(file);
    return copy_length > 0;
}

static uint32_t commit(void *with, const uint8_t *image, uint32_t length,
                       const struct wire_place *place)
{
    (void)with;
    if (!write_flash(image != NULL ? image : copy, length, place))
        return WIRE_DISK;
    if (image != NULL)
        memcpy(copy, image, length);
    copy_length = length;
    printf("state %lu/%lu, %lu bytes, sum ", (unsigned long)place->term,
           (unsigned long)place->seq, (unsigned long)length);
    for (int i = 0; i < 32; i++)
        printf("%02x", place->sum[i]);
    printf("\n");
    fflush(stdout);
    return WIRE_FINE;
}

static void event(void *with, enum station_event what,
                  const struct wire_place *place, uint32_t detail)
{
    (void)with;
    (void)place;
    if (what == STATION_REFUSED)
        fprintf(stderr, "refused: %s\n", wire_words(detail));
}

static void on_connect(struct mosquitto *m, void *with, int code)
{
    (void)m;
    (void)with;
    if (code == 0)
        station_connected(&station);
}

static void on_message(struct mosquitto *m, void *with,
                       const struct mosquitto_message *got)
{
    (void)m;
    (void)with;
    if (strncmp(got->topic, prefix, strlen(prefix)) == 0)
        station_message(&station, got->topic + strlen(prefix), got->payload,
                        (size_t)got->payloadlen);
}

int main(int argc, char **argv)
{
    static const struct station_port port = {
        .window = 8, .again = 256, .longest = sizeof copy, .subscribe = ask,
        .unsubscribe = no_more, .publish = say, .lend = lend, .load = load,
        .commit = commit, .event = event
    };
    struct wire_place at;
    uint8_t sum[WIRE_SUM];
    int placed;

    if (argc != 6)
        return 2;
    prefix = argv[3];
    flash = argv[5];
    placed = read_flash(&at);
    sum_of(copy, copy_length, sum);
    mosquitto_lib_init();
    mosq = mosquitto_new(NULL, true, NULL);
    station_begin(&station, &port, argv[4], placed ? &at : NULL, copy_length, sum);
    mosquitto_connect_callback_set(mosq, on_connect);
    mosquitto_message_callback_set(mosq, on_message);
    mosquitto_connect(mosq, argv[1], atoi(argv[2]), 60);
    return mosquitto_loop_forever(mosq, -1, 1);
}
