/* The connection to a broker, by libmosquitto: made again when it ends, with
 * growing pauses and a share of chance in them, and without a thread. */
#ifndef LINK_H
#define LINK_H

#include "settings.h"

#include <stddef.h>

struct mosquitto;

struct link {
    const struct settings *settings;
    struct mosquitto *mosq;
    const char *will;           /* topic behind the prefix that says 0 when this
                                   ends without a word; NULL: none */
    void *with;
    void (*connected)(void *with);
    void (*message)(void *with, const char *topic, const uint8_t *bytes,
                    size_t size);
    int up;                     /* is there a connection? */
    int status;                 /* other than DONE: it is of no use to go on */
    unsigned tries;             /* since the last connection */
    unsigned unheard;           /* messages that the broker has not acknowledged */
    long long next_try;         /* milliseconds of link_now */
    unsigned long long received, sent; /* bytes of PUBLISH */
};

/* Makes ready; answers a status. */
int link_open(struct link *l);

/* Waits for something to happen, also on another descriptor (-1: none), at most
 * so many milliseconds. Other than 0 if that descriptor has something. */
int link_wait(struct link *l, int other, int most);

/* The topic is behind the prefix. */
void link_publish(struct link *l, const char *topic, const uint8_t *bytes,
                  size_t size);
void link_subscribe(struct link *l, const char *topic);
void link_unsubscribe(struct link *l, const char *topic);

/* Sends what is left, says good-bye, and gives everything back. */
void link_close(struct link *l);

/* Milliseconds of a clock that does not jump. */
long long link_now(void);

/* Random bytes of the system. */
void link_random(uint8_t *bytes, size_t size);

/* Other than 0 when the process is asked to end. */
extern volatile int link_ending;
void link_catch_signals(void);

#endif
