/* The messages of the stations' protocol, byte by byte: docs/STATIONS.md. No
 * sockets, no files, no memory of its own. Numbers are big-endian. */
#ifndef WIRE_H
#define WIRE_H

#include <stddef.h>
#include <stdint.h>

#define WIRE_SUM 32u
#define WIRE_LINE 8u         /* bytes of a line's name */
#define WIRE_HEAD 72u        /* of a head, up to what the signature covers */
#define WIRE_CHECK 8u        /* of a message's own sum */
#define WIRE_SIGNATURE 64u
#define WIRE_CHUNK_HEAD 16u  /* in front of a chunk's data */
#define WIRE_AT 68u
#define WIRE_WANT 24u
#define WIRE_NAME 16u        /* of a stretch: the first bytes of its sum */
#define WIRE_MANIFEST 56u    /* in front of a manifest's names */
#define WIRE_TOPIC 96u       /* bytes of the longest topic behind the prefix */
#define WIRE_STATION 32u     /* of the longest name of a station */
#define WIRE_LEVELS 5

/* Records lead over so many states: 1, 4, 16, 64 and 256. */
extern const uint32_t wire_level[WIRE_LEVELS];

/* Which of the states of an office's file: the line is one history, terms order
 * lines, and the sequence orders the states of a line. */
struct wire_place {
    uint8_t line[WIRE_LINE];
    uint32_t term;
    uint32_t seq;
    uint8_t sum[WIRE_SUM];   /* of the image */
};

struct wire_head {
    struct wire_place place;
    uint32_t length;           /* of the image */
    uint32_t snap;             /* the newest snapshot */
    uint32_t kept;             /* snapshots are there from this state on */
    uint32_t base;             /* records are there from this state on */
    const uint8_t *inlined;    /* the last record without its head: 8 bytes of
                                  the sum before it, then its content */
    size_t inlined_size;       /* 0 if there is none */
    const uint8_t *signature;  /* or NULL */
};

struct wire_chunk {
    uint32_t number;           /* from 0 */
    uint32_t count;
    const uint8_t *object;     /* WIRE_CHECK bytes of the whole object's sum */
    const uint8_t *data;
    size_t size;
};

/* What a station says of its copy. */
struct wire_at {
    struct wire_place place;
    uint32_t refusal;          /* enum wire_refusal */
};

enum wire_refusal {
    WIRE_FINE,
    WIRE_DAMAGED,      /* a message, or what it is part of, is damaged */
    WIRE_UNFIT,        /* what was fetched does not lead to the head's sum */
    WIRE_OLD_OFFICE,   /* a head of a lower term */
    WIRE_OTHER_OFFICE, /* a head of the same term and another line */
    WIRE_SPLIT,        /* two states have one number */
    WIRE_MISSING,      /* the broker has not what the head tells of */
    WIRE_UNSIGNED,     /* the signature is missing or wrong */
    WIRE_TOO_LARGE,    /* no memory for an image of that length */
    WIRE_DISK,         /* the copy could not be written */
    WIRE_CHANGED,      /* somebody else changed the copy */
    WIRE_REFUSALS
};

const char *wire_words(uint32_t refusal);

struct wire_manifest {
    struct wire_place place;
    uint32_t length;           /* of the image */
    uint32_t stretch;          /* bytes of a stretch; the last may be shorter */
    uint32_t count;
    const uint8_t *names;      /* WIRE_NAME bytes each; zeros: all zero bytes */
};

uint32_t wire_u32(const uint8_t *bytes);
void wire_put_u32(uint8_t *bytes, uint32_t number);

/* Below 0, 0 or above 0: is place a older than b, the same, or newer? Lines of
 * one term are not ordered: then as by their bytes, and wire_rivals is true. */
int wire_order(const struct wire_place *a, const struct wire_place *b);
int wire_rivals(const struct wire_place *a, const struct wire_place *b);
int wire_same(const struct wire_place *a, const struct wire_place *b);

/* Each _put answers the bytes written; each _get other than 0 if the bytes are
 * a whole message of that kind. */
size_t wire_head_put(uint8_t *to, const struct wire_head *head);
int wire_head_get(struct wire_head *head, const uint8_t *bytes, size_t size);
size_t wire_chunk_put(uint8_t *to, const struct wire_chunk *chunk);
int wire_chunk_get(struct wire_chunk *chunk, const uint8_t *bytes, size_t size);
size_t wire_at_put(uint8_t to[WIRE_AT], const struct wire_at *at);
int wire_at_get(struct wire_at *at, const uint8_t *bytes, size_t size);
size_t wire_want_put(uint8_t to[WIRE_WANT], const struct wire_place *place);
int wire_want_get(struct wire_place *place, const uint8_t *bytes, size_t size);
size_t wire_manifest_put(uint8_t *to, const struct wire_manifest *manifest);
int wire_manifest_get(struct wire_manifest *manifest, const uint8_t *bytes,
                      size_t size);

/* How many stretches an image has. */
uint32_t wire_stretches(uint32_t length, uint32_t stretch);

/* The level of the longest record that begins at a state and does not lead
 * beyond another. */
int wire_step(uint32_t from, uint32_t to);

/* Topics behind the prefix. */
void wire_topic_record(char topic[WIRE_TOPIC], uint32_t level, uint32_t from,
                       uint32_t chunk);
void wire_topic_manifest(char topic[WIRE_TOPIC], uint32_t seq, uint32_t chunk);
void wire_topic_stretch(char topic[WIRE_TOPIC], const uint8_t *name,
                        uint32_t chunk);

/* Is this a word that may stand in a topic: a site's, a file's, a station's? */
int wire_word(const char *word);

#endif
