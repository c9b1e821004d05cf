/* The office's side of the protocol: images and messages in, actions out. No
 * sockets, no clock; what must outlive the process goes through the port, in
 * the order in which it is asked for.
 *
 * Nothing is allocated: memory is lent by the port, in OFFICE_PLACES pieces:
 * the image that was published last and twice what a record may take of it, its
 * length L and 124 each; the image of a snapshot that is published again; pairs
 * of the records that become one; names of stretches, 16 bytes each, of at most
 * OFFICE_SNAPS snapshots; a chunk. */
#ifndef OFFICE_H
#define OFFICE_H

#include "wire.h"

enum {
    OFFICE_SHADOW,      /* which piece of memory: the image published last, */
    OFFICE_RECORD,      /* a record, */
    OFFICE_OBJECT,      /* as it travels, */
    OFFICE_IMAGE,       /* a snapshot, */
    OFFICE_PAIRS,       /* pairs of several records, */
    OFFICE_CHUNK,       /* a message, */
    OFFICE_NAMES,       /* and names of stretches: one piece for each snapshot */
    OFFICE_SNAPS = 8,
    OFFICE_PLACES = OFFICE_NAMES + OFFICE_SNAPS + 1,
    OFFICE_MARKS = 16,  /* snapshots that are remembered */
    OFFICE_WANTS = 256, /* stations that fetch a snapshot at a time */
    OFFICE_STATE = 80 + 4 * OFFICE_SNAPS + 4 * OFFICE_MARKS,
    OFFICE_NAME = 40    /* bytes of the longest name in the store */
};

enum office_event {
    OFFICE_READY,       /* it knows what the broker has */
    OFFICE_MADE,        /* a new state; `detail` is its record's size */
    OFFICE_PUBLISHED,   /* the broker brought the head back */
    OFFICE_NEW_LINE,    /* `detail` is the reason, enum office_reason */
    OFFICE_NEW_SNAPSHOT,/* `detail` is its size as it travels */
    OFFICE_REPEATED,    /* the head, or everything, was published again */
    OFFICE_ELSEWHERE,   /* a station follows another office */
    OFFICE_RIVAL,       /* another office publishes: this one has stopped */
    OFFICE_TROUBLE      /* the store failed: this one has stopped */
};

enum office_reason {
    OFFICE_FIRST,       /* no state is kept */
    OFFICE_LENGTH,      /* the file has another length */
    OFFICE_AHEAD,       /* broker or station has states that it does not know */
    OFFICE_TAKE_OVER,   /* it was told to replace another office */
    OFFICE_FULL         /* sequence numbers are used up */
};

struct office_port {
    void *with;
    uint32_t chunk;     /* bytes of data in a message */
    uint32_t stretch;   /* bytes of a stretch of a snapshot */
    int take_over;      /* replace another office */
    unsigned again;     /* after so many messages it asks again: fewer than a
                           broker queues before it drops the newest */
    void (*subscribe)(void *with, const char *topic);
    /* Retained, at least once. Size 0 takes it away. */
    void (*publish)(void *with, const char *topic, const uint8_t *bytes,
                    size_t size);
    uint8_t *(*lend)(void *with, unsigned place, size_t bytes);
    /* State and image, kept together, whole or not at all: 0 when they are on
     * the disk. */
    int (*save)(void *with, const uint8_t state[OFFICE_STATE],
                const uint8_t *image, uint32_t length);
    /* Things by name; they may be lost by a power cut, which is seen. _get
     * answers the size, 0 for none; `to` NULL only asks. */
    int (*put)(void *with, const char *name, const uint8_t *bytes, size_t size);
    size_t (*get)(void *with, const char *name, uint8_t *to, size_t room);
    void (*drop)(void *with, const char *name);
    /* The record from one image to the other, as bhtf_delta_make: 0. */
    int (*make)(void *with, const uint8_t *before, const uint8_t *before_sum,
                const uint8_t *after, uint32_t length, uint8_t *record,
                size_t room, size_t *size);
    void (*sign)(void *with, const uint8_t *head,
                 uint8_t signature[WIRE_SIGNATURE]);  /* or NULL */
    void (*random)(void *with, uint8_t *bytes, size_t size);
    void (*event)(void *with, enum office_event event,
                  const struct wire_place *place, uint32_t detail);
};

struct office {
    const struct office_port *port;
    int known;                      /* is there a state? */
    struct wire_place at;
    uint32_t length;                /* of the image */
    uint32_t base;
    uint32_t snaps, snap[OFFICE_SNAPS];  /* kept, oldest first */
    uint32_t marks, mark[OFFICE_MARKS];  /* older ones too */
    uint64_t weight;                /* of the newest as it travels */
    uint8_t nonce[8];
    uint32_t heard;
    int ready, stopped;
    int take_over;                  /* not done yet */
    int seen;                       /* the broker's head: see office.c */
    struct wire_place head;
    int is_signed;                  /* is the broker's head? */
    int begun;                      /* the line began on this connection */
    int ahead;                      /* a station knows a later state */
    uint32_t elsewhere;             /* the highest term of another line */
    int rebase;                     /* something in the store is lost */
    int repaired;                   /* since the last change: all was published
                                       again, or will be when it is ready */
    uint32_t came_back;             /* the last own head that did, plus 1 */
    struct { char name[WIRE_STATION + 1]; uint32_t seq; } want[OFFICE_WANTS];
    unsigned wants;
};

/* Begins with what was kept, or with nothing: state NULL. The image of that
 * state is lent as OFFICE_SHADOW already. What is damaged counts as nothing. */
void office_begin(struct office *o, const struct office_port *port,
                  const uint8_t *state, uint32_t length);

/* Does the office still need what has this name in the store? */
int office_needs(const struct office *o, const char *name);

/* A connection was made. */
void office_connected(struct office *o);

/* A message came; the topic is without the prefix. */
void office_message(struct office *o, const char *topic, const uint8_t *bytes,
                    size_t size);

/* The file is now this image. Nothing happens before the office is ready. */
void office_change(struct office *o, const uint8_t *image, uint32_t length);

/* Other than 0 if the broker has brought back the head of the last state. */
int office_published(const struct office *o);

#endif
