/* The messages of the stations' protocol, byte by byte. */
#include "wire.h"

#include "sum.h"

#include <stdio.h>
#include <string.h>

const uint32_t wire_level[WIRE_LEVELS] = { 1, 4, 16, 64, 256 };

enum { SIGNED = 1, INLINED = 2 };  /* of a head's seventh byte */

static const uint8_t head_magic[6] = { 'B', 'H', 'T', 'F', 'h', 1 };
static const uint8_t at_magic[8] = { 'B', 'H', 'T', 'F', 'a', 1, 0, 0 };

/* ---- numbers and places ---- */

uint32_t wire_u32(const uint8_t *bytes)
{
    return (uint32_t)bytes[0] << 24 | (uint32_t)bytes[1] << 16 |
           (uint32_t)bytes[2] << 8 | bytes[3];
}

void wire_put_u32(uint8_t *bytes, uint32_t number)
{
    bytes[0] = (uint8_t)(number >> 24);
    bytes[1] = (uint8_t)(number >> 16);
    bytes[2] = (uint8_t)(number >> 8);
    bytes[3] = (uint8_t)number;
}

static void put_numbers(uint8_t *to, const struct wire_place *place)
{
    memcpy(to, place->line, WIRE_LINE);
    wire_put_u32(to + 8, place->term);
    wire_put_u32(to + 12, place->seq);
}

static void get_numbers(struct wire_place *place, const uint8_t *from)
{
    memcpy(place->line, from, WIRE_LINE);
    place->term = wire_u32(from + 8);
    place->seq = wire_u32(from + 12);
}

int wire_order(const struct wire_place *a, const struct wire_place *b)
{
    int lines = memcmp(a->line, b->line, WIRE_LINE);

    if (a->term != b->term)
        return a->term < b->term ? -1 : 1;
    if (lines != 0)
        return lines;
    return a->seq < b->seq ? -1 : a->seq > b->seq;
}

int wire_rivals(const struct wire_place *a, const struct wire_place *b)
{
    return a->term == b->term && memcmp(a->line, b->line, WIRE_LINE) != 0;
}

int wire_same(const struct wire_place *a, const struct wire_place *b)
{
    return wire_order(a, b) == 0 && memcmp(a->sum, b->sum, WIRE_SUM) == 0;
}

/* ---- messages' own sums ---- */

static size_t seal(uint8_t *message, size_t size)
{
    uint8_t sum[WIRE_SUM];

    sum_of(message, size, sum);
    memcpy(message + size, sum, WIRE_CHECK);
    return size + WIRE_CHECK;
}

static int sealed(const uint8_t *message, size_t size)
{
    uint8_t sum[WIRE_SUM];

    sum_of(message, size, sum);
    return memcmp(message + size, sum, WIRE_CHECK) == 0;
}

/* ---- head ---- */

/* The signature stands behind the message's sum, so that whoever signs adds it
 * to a head that is done. */
size_t wire_head_put(uint8_t *to, const struct wire_head *head)
{
    size_t size = WIRE_HEAD;

    memcpy(to, head_magic, sizeof head_magic);
    to[6] = (uint8_t)((head->signature != NULL ? SIGNED : 0) |
                      (head->inlined_size > 0 ? INLINED : 0));
    to[7] = 0;
    put_numbers(to + 8, &head->place);
    wire_put_u32(to + 24, head->length);
    wire_put_u32(to + 28, head->snap);
    wire_put_u32(to + 32, head->kept);
    wire_put_u32(to + 36, head->base);
    memcpy(to + 40, head->place.sum, WIRE_SUM);
    if (head->inlined_size > 0)
        memcpy(to + size, head->inlined, head->inlined_size);
    size = seal(to, size + head->inlined_size);
    if (head->signature == NULL)
        return size;
    memcpy(to + size, head->signature, WIRE_SIGNATURE);
    return size + WIRE_SIGNATURE;
}

int wire_head_get(struct wire_head *head, const uint8_t *bytes, size_t size)
{
    size_t tail = WIRE_CHECK;

    memset(head, 0, sizeof *head);
    if (size < WIRE_HEAD + WIRE_CHECK ||
        memcmp(bytes, head_magic, sizeof head_magic) != 0 ||
        (bytes[6] & ~(SIGNED | INLINED)) != 0 || bytes[7] != 0)
        return 0;
    if (bytes[6] & SIGNED)
        tail += WIRE_SIGNATURE;
    if (size < WIRE_HEAD + tail || !sealed(bytes, size - tail))
        return 0;
    get_numbers(&head->place, bytes + 8);
    head->length = wire_u32(bytes + 24);
    head->snap = wire_u32(bytes + 28);
    head->kept = wire_u32(bytes + 32);
    head->base = wire_u32(bytes + 36);
    memcpy(head->place.sum, bytes + 40, WIRE_SUM);
    head->inlined_size = size - tail - WIRE_HEAD;
    head->inlined = bytes + WIRE_HEAD;
    head->signature = bytes[6] & SIGNED ? bytes + size - WIRE_SIGNATURE : NULL;
    return ((bytes[6] & INLINED) != 0) == (head->inlined_size > 0) &&
           head->length > 0 && head->base <= head->kept &&
           head->kept <= head->snap && head->snap <= head->place.seq;
}

/* ---- chunk ---- */

size_t wire_chunk_put(uint8_t *to, const struct wire_chunk *chunk)
{
    wire_put_u32(to, chunk->number);
    wire_put_u32(to + 4, chunk->count);
    memcpy(to + 8, chunk->object, WIRE_CHECK);
    memcpy(to + WIRE_CHUNK_HEAD, chunk->data, chunk->size);
    return seal(to, WIRE_CHUNK_HEAD + chunk->size);
}

int wire_chunk_get(struct wire_chunk *chunk, const uint8_t *bytes, size_t size)
{
    if (size <= WIRE_CHUNK_HEAD + WIRE_CHECK ||
        !sealed(bytes, size - WIRE_CHECK))
        return 0;
    chunk->number = wire_u32(bytes);
    chunk->count = wire_u32(bytes + 4);
    chunk->object = bytes + 8;
    chunk->data = bytes + WIRE_CHUNK_HEAD;
    chunk->size = size - WIRE_CHUNK_HEAD - WIRE_CHECK;
    return chunk->number < chunk->count;
}

/* ---- a station's words ---- */

size_t wire_at_put(uint8_t to[WIRE_AT], const struct wire_at *at)
{
    memcpy(to, at_magic, sizeof at_magic);
    put_numbers(to + 8, &at->place);
    memcpy(to + 24, at->place.sum, WIRE_SUM);
    wire_put_u32(to + 56, at->refusal);
    return seal(to, WIRE_AT - WIRE_CHECK);
}

int wire_at_get(struct wire_at *at, const uint8_t *bytes, size_t size)
{
    if (size != WIRE_AT || memcmp(bytes, at_magic, sizeof at_magic) != 0 ||
        !sealed(bytes, WIRE_AT - WIRE_CHECK))
        return 0;
    get_numbers(&at->place, bytes + 8);
    memcpy(at->place.sum, bytes + 24, WIRE_SUM);
    at->refusal = wire_u32(bytes + 56);
    return at->refusal < WIRE_REFUSALS;
}

size_t wire_want_put(uint8_t to[WIRE_WANT], const struct wire_place *place)
{
    put_numbers(to, place);
    return seal(to, WIRE_WANT - WIRE_CHECK);
}

int wire_want_get(struct wire_place *place, const uint8_t *bytes, size_t size)
{
    memset(place, 0, sizeof *place);
    if (size != WIRE_WANT || !sealed(bytes, WIRE_WANT - WIRE_CHECK))
        return 0;
    get_numbers(place, bytes);
    return 1;
}

const char *wire_words(uint32_t refusal)
{
    static const char *const words[WIRE_REFUSALS] = {
        "fine",
        "damaged",
        "what was fetched does not lead to the head's sum",
        "a head of an office that was replaced",
        "a head of another office of the same term",
        "two states have one number",
        "the broker has not what the head tells of",
        "the head's signature is missing or wrong",
        "no memory for an image of that length",
        "the copy could not be written",
        "the copy is none of the office's states; --replace to replace it"
    };

    return refusal < WIRE_REFUSALS ? words[refusal] : "unknown";
}

/* ---- manifest ---- */

uint32_t wire_stretches(uint32_t length, uint32_t stretch)
{
    return length / stretch + (length % stretch != 0);
}

size_t wire_manifest_put(uint8_t *to, const struct wire_manifest *manifest)
{
    put_numbers(to, &manifest->place);
    wire_put_u32(to + 16, manifest->length);
    wire_put_u32(to + 20, manifest->stretch);
    memcpy(to + 24, manifest->place.sum, WIRE_SUM);
    memmove(to + WIRE_MANIFEST, manifest->names,
            (size_t)manifest->count * WIRE_NAME);
    return WIRE_MANIFEST + (size_t)manifest->count * WIRE_NAME;
}

int wire_manifest_get(struct wire_manifest *manifest, const uint8_t *bytes,
                      size_t size)
{
    if (size < WIRE_MANIFEST)
        return 0;
    get_numbers(&manifest->place, bytes);
    manifest->length = wire_u32(bytes + 16);
    manifest->stretch = wire_u32(bytes + 20);
    memcpy(manifest->place.sum, bytes + 24, WIRE_SUM);
    manifest->names = bytes + WIRE_MANIFEST;
    if (manifest->stretch == 0 || manifest->length == 0)
        return 0;
    manifest->count = wire_stretches(manifest->length, manifest->stretch);
    return (size - WIRE_MANIFEST) / WIRE_NAME == manifest->count &&
           (size - WIRE_MANIFEST) % WIRE_NAME == 0;
}

/* ---- paths and topics ---- */

int wire_step(uint32_t from, uint32_t to)
{
    int k = WIRE_LEVELS - 1;

    while (k > 0 && (from % wire_level[k] != 0 || to - from < wire_level[k]))
        k--;
    return k;
}

void wire_topic_record(char topic[WIRE_TOPIC], uint32_t level, uint32_t from,
                       uint32_t chunk)
{
    snprintf(topic, WIRE_TOPIC, "r/%lu/%lu/%lu", (unsigned long)level,
             (unsigned long)from, (unsigned long)chunk);
}

void wire_topic_manifest(char topic[WIRE_TOPIC], uint32_t seq, uint32_t chunk)
{
    snprintf(topic, WIRE_TOPIC, "s/%lu/%lu", (unsigned long)seq,
             (unsigned long)chunk);
}

void wire_topic_stretch(char topic[WIRE_TOPIC], const uint8_t *name,
                        uint32_t chunk)
{
    char hex[2 * WIRE_NAME + 1];

    for (size_t i = 0; i < WIRE_NAME; i++)
        snprintf(hex + 2 * i, 3, "%02x", name[i]);
    snprintf(topic, WIRE_TOPIC, "c/%s/%lu", hex, (unsigned long)chunk);
}

int wire_word(const char *word)
{
    size_t n = strspn(word, "abcdefghijklmnopqrstuvwxyzABCDEFGHIJKLMNOPQRSTUVWXYZ"
                            "0123456789-_.");

    return n > 0 && n <= WIRE_STATION && word[n] == '\0';
}
