/* A station's side of the protocol: messages in, actions out. No sockets, no
 * files, no clock. Firmware takes station.c, wire.c, object.c and the library's
 * delta calls (bhtf_delta.h), and fills struct station_port.
 *
 * Nothing is allocated: memory is lent by the port, in STATION_PLACES pieces
 * that may grow: the new image, its length L; a record, L + 124; eight objects
 * on their way, each at most as long as what it holds and a chunk; a manifest,
 * 56 + 16 bytes for each stretch, and a bit for each.
 *
 * What is promised, whatever messages come in whatever order: the image that is
 * handed to `commit` has the sum of a head that was heard; of the heads whose
 * images were committed each is newer than the one before it. docs/STATIONS.md
 * has the argument. */
#ifndef STATION_H
#define STATION_H

#include "wire.h"

enum {
    STATION_GETS = 8,              /* objects that are fetched at a time */
    STATION_PLAIN = STATION_GETS,  /* which piece of memory: a record, */
    STATION_WORK,                  /* the new image, */
    STATION_MANIFEST,              /* its manifest, */
    STATION_BITS,                  /* and which of its stretches are there */
    STATION_PLACES
};

enum station_event {
    STATION_EQUAL,      /* the copy is what the head says */
    STATION_BEHIND,     /* begins to fetch records */
    STATION_SNAPSHOT,   /* begins to fetch a snapshot */
    STATION_REFUSED     /* `detail` is the refusal */
};

struct station_port {
    void *with;
    unsigned window;    /* topics that are asked for at a time */
    unsigned again;     /* after so many messages it asks again: fewer than a
                           broker queues before it drops the newest */
    uint32_t longest;   /* image that is taken */
    int replace;        /* a copy that is none of the office's states may be
                           replaced */
    void (*subscribe)(void *with, const char *topic);
    void (*unsubscribe)(void *with, const char *topic);
    /* Retained, at least once. Size 0 takes it away. */
    void (*publish)(void *with, const char *topic, const uint8_t *bytes,
                    size_t size);
    /* A piece of memory of at least so many bytes, which keeps its bytes when
     * it grows; or NULL. */
    uint8_t *(*lend)(void *with, unsigned place, size_t bytes);
    /* The copy's bytes: 0, or -1 if it cannot be read or has another length. */
    int (*load)(void *with, uint8_t *image, uint32_t length);
    /* The copy becomes this image, whole or not at all, and its place is kept
     * beside it. Image NULL: the copy has it already. Answers a refusal. */
    uint32_t (*commit)(void *with, const uint8_t *image, uint32_t length,
                       const struct wire_place *place);
    /* Other than 0 if the office signed these WIRE_HEAD bytes. NULL: signatures
     * are not asked for. */
    int (*verify)(void *with, const uint8_t *head, const uint8_t *signature);
    /* Stretches of a snapshot that is not done yet, kept over a restart; both
     * may be NULL. _get answers other than 0 if it has that stretch. */
    void (*keep_put)(void *with, const uint8_t *name, const uint8_t *bytes,
                     size_t size);
    int (*keep_get)(void *with, const uint8_t *name, uint8_t *bytes,
                    size_t size);
    void (*event)(void *with, enum station_event event,
                  const struct wire_place *place, uint32_t detail);
};

/* An object on its way. */
struct station_get {
    int kind;                    /* 0: none */
    uint32_t level, from;        /* of a record; of a manifest its state */
    uint8_t name[WIRE_NAME];     /* of a stretch */
    uint8_t object[WIRE_CHECK];  /* its sum's first bytes */
    uint32_t count;              /* chunks; 0 until the first is there */
    uint32_t asked, have;        /* of these */
    uint32_t probed;             /* asked for in front of the head: see there */
    uint32_t chunk, last;        /* bytes of one, and of the last */
    int done;
};

struct station {
    const struct station_port *port;
    char name[WIRE_STATION + 1];
    struct wire_place at;        /* the newest place that it had */
    int placed;                  /* is there one? */
    uint32_t length;             /* of the copy; 0: there is none */
    uint8_t sum[WIRE_SUM];       /* of the copy */
    struct wire_head goal;       /* the newest head heard */
    int has_goal;
    int work;                    /* what is being done */
    struct wire_place pin;       /* the snapshot that is fetched */
    uint32_t seq;                /* the state of the new image, */
    uint8_t seq_sum[WIRE_SUM];   /* and its sum as records tell it */
    uint32_t asked;              /* records are asked for up to this state */
    uint32_t stretch, stretches; /* of the snapshot */
    uint32_t missing, next;      /* stretches not there; where to look on */
    uint64_t kept;               /* bytes of stretches kept since a commit */
    int no_records;              /* records did not fit: a snapshot is next */
    int retried;                 /* nor did a snapshot, and it was begun again */
    uint32_t refusal, told;      /* the last one, and that the office knows */
    uint32_t heard;
    int probing;                 /* the head was asked for behind objects */
    struct station_get get[STATION_GETS];
};

/* Begins. `at` NULL: no place is known. length 0: there is no copy. */
void station_begin(struct station *s, const struct station_port *port,
                   const char *name, const struct wire_place *at,
                   uint32_t length, const uint8_t sum[WIRE_SUM]);

/* A connection was made: what was asked for on the last one is asked again. */
void station_connected(struct station *s);

/* A message came; the topic is without the prefix. */
void station_message(struct station *s, const char *topic, const uint8_t *bytes,
                     size_t size);

/* Other than 0 if the copy is the newest state that it has heard of. */
int station_equal(const struct station *s);

#endif
