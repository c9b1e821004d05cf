/* What a dump says of a file besides its points. */
#include "dump_head.h"

#include "command_limits.h"
#include "image_header.h"
#include "typed.h"

#include <stddef.h>
#include <string.h>

/* Places in the header. */
enum {
    SERIAL_AT = 8,
    MULTIPLIER_AT = 24,
    START_AT = 28,
    FIRST_AT = 32,
    LAST_AT = 36,
    SCRAMBLE_AT = 512,
    SCRAMBLE_END = 2048
};

void dump_head_clear(struct dump_head *t)
{
    memset(t, 0, sizeof *t);
}

/* ---- from an image ---- */

/* The seed whose first generated number this is: the generator's step,
 * state * 1,664,525 + 1,013,904,223, turned round. */
static uint32_t seed_before(uint32_t first)
{
    uint32_t inverse = 1;

    for (int i = 0; i < 5; i++)
        inverse *= 2 - UINT32_C(1664525) * inverse;
    return (first - UINT32_C(1013904223)) * inverse;
}

/* Is what stands between the key's hash and its slot what create makes of this
 * seed? */
static int is_seeded(const uint8_t *image, uint32_t seed)
{
    uint8_t fresh[BHTF_PAGE];

    return bhtf_create(fresh, sizeof fresh, 1, 1, seed) == BHTF_ACCEPTED &&
           memcmp(fresh + MULTIPLIER_AT, image + MULTIPLIER_AT,
                  LAST_AT + 4 - MULTIPLIER_AT) == 0 &&
           memcmp(fresh + SCRAMBLE_AT, image + SCRAMBLE_AT,
                  4 * (read_u32(fresh + LAST_AT) -
                       read_u32(fresh + FIRST_AT) + 1)) == 0;
}

void dump_head_read(struct dump_head *t, const uint8_t *image, size_t length)
{
    const struct header h = header_read(image);

    dump_head_clear(t);
    t->version = version_of(image);
    t->size = length;
    t->key_size = h.key_size;
    t->slots = h.slots;
    t->serial = read_u32(image + SERIAL_AT);
    t->multiplier = h.multiplier;
    t->start = h.start;
    t->first = h.first;
    t->last = h.last;
    t->scrambles = h.last - h.first + 1;
    for (size_t i = 0; i < t->scrambles; i++)
        t->scramble[i] = scramble_number(image, (uint32_t)i);
    t->seed = seed_before(t->scramble[0]);
    t->seeded = is_seeded(image, (uint32_t)t->seed);
}

/* ---- as lines ---- */

/* A value with a line of its own. */
struct row {
    const char *name;
    size_t place;
    uint64_t most;
    int how; /* 0: in every dump; 1: unless seeded; 2: in hexadecimal, too;
                3: if not zero */
};

#define AT(member) offsetof(struct dump_head, member)

static const struct row rows[] = {
    { "key-size", AT(key_size), UINT32_MAX, 0 },
    { "slots", AT(slots), UINT32_MAX, 0 },
    { "size", AT(size), UINT32_MAX, 0 },
    { "serial", AT(serial), UINT32_MAX, 3 },
    { "multiplier", AT(multiplier), UINT32_MAX, 2 },
    { "start", AT(start), UINT32_MAX, 2 },
    { "first", AT(first), 255, 1 },
    { "last", AT(last), 255, 1 }
};

enum { ROWS = sizeof rows / sizeof rows[0], VERSION_LINE = ROWS, SEED_LINE };

static uint64_t value(const struct dump_head *t, const struct row *r)
{
    return *(const uint64_t *)((const char *)t + r->place);
}

static int put_value(struct buffer *to, const struct row *r, uint64_t number)
{
    char line[64];

    snprintf(line, sizeof line, r->how == 2 ? "%s 0x%08lX\n" : "%s %lu\n",
             r->name, (unsigned long)number);
    return buffer_put(to, line, strlen(line));
}

static int put_scramble(struct buffer *to, const struct dump_head *t)
{
    char number[16];
    int done = 0;

    for (size_t i = 0; i < t->scrambles; i++) {
        if (i % 8 == 0)
            done |= buffer_put(to, "scramble", 8);
        snprintf(number, sizeof number, " 0x%08lX%s",
                 (unsigned long)t->scramble[i],
                 i % 8 == 7 || i + 1 == t->scrambles ? "\n" : "");
        done |= buffer_put(to, number, strlen(number));
    }
    return done;
}

int dump_head_put(const struct dump_head *t, struct buffer *to)
{
    char line[64];
    int done;

    snprintf(line, sizeof line, "version %u.%u.%u\n", t->version.number[0],
             t->version.number[1], t->version.number[2]);
    done = buffer_put(to, line, strlen(line));
    for (size_t i = 0; i < ROWS; i++) {
        const struct row *r = &rows[i];
        int said = r->how == 0 || (r->how == 3 ? value(t, r) != 0
                                               : !t->seeded);

        if (said)
            done |= put_value(to, r, value(t, r));
    }
    if (!t->seeded)
        return done | put_scramble(to, t);
    snprintf(line, sizeof line, "seed %lu\n", (unsigned long)t->seed);
    return done | buffer_put(to, line, strlen(line));
}

/* ---- from lines ---- */

/* Is the line this word and a value? */
static const char *after(const char *line, const char *word)
{
    size_t length = strlen(word);

    return strncmp(line, word, length) == 0 && line[length] == ' '
        ? line + length + 1 : NULL;
}

static const char *take_version(struct dump_head *t, const char *numbers)
{
    unsigned a, b, c;
    char end;

    if (strlen(numbers) > 11 ||
        sscanf(numbers, "%3u.%3u.%3u%c", &a, &b, &c, &end) != 3 || a > 255 ||
        b > 255 || c > 255)
        return "a version is three numbers with points between them";
    t->version.number[0] = (uint8_t)a;
    t->version.number[1] = (uint8_t)b;
    t->version.number[2] = (uint8_t)c;
    return NULL;
}

static const char *take_scramble(struct dump_head *t, const char *numbers)
{
    char word[16];
    int used;

    while (*numbers != '\0') {
        uint64_t number;

        if (sscanf(numbers, "%15[^ ]%n", word, &used) != 1 ||
            (numbers[used] != ' ' && numbers[used] != '\0') ||
            number_read(word, UINT32_MAX, &number) != 0)
            return "scramble takes numbers from 0 to 0xFFFFFFFF";
        if (t->scrambles == SCRAMBLES_MAX)
            return "there are too many numbers of the scramble";
        t->scramble[t->scrambles++] = (uint32_t)number;
        numbers += used;
        numbers += *numbers == ' ';
    }
    return NULL;
}

static const char *take_seed(struct dump_head *t, const char *number)
{
    t->seeded = 1;
    return number_read(number, UINT32_MAX, &t->seed) == 0
        ? NULL : "seed takes a number from 0 to 4294967295";
}

/* Notes that a line was taken: NULL, or what is wrong. */
static const char *once(struct dump_head *t, size_t line)
{
    unsigned bit = 1u << line;
    int again = (t->said & bit) != 0;

    t->said |= bit;
    return again ? "the line stands there twice" : NULL;
}

const char *dump_head_take(struct dump_head *t, const char *line)
{
    const char *rest, *wrong;

    if ((rest = after(line, "scramble")) != NULL)
        return take_scramble(t, rest);
    if ((rest = after(line, "version")) != NULL)
        return (wrong = once(t, VERSION_LINE)) != NULL
            ? wrong : take_version(t, rest);
    if ((rest = after(line, "seed")) != NULL)
        return (wrong = once(t, SEED_LINE)) != NULL
            ? wrong : take_seed(t, rest);
    for (size_t i = 0; i < ROWS; i++) {
        uint64_t *number = (uint64_t *)((char *)t + rows[i].place);

        if ((rest = after(line, rows[i].name)) == NULL)
            continue;
        if (number_read(rest, rows[i].most, number) != 0)
            return "the number is too large, or none";
        return once(t, i);
    }
    return "the line is not known";
}

const char *dump_head_whole(const struct dump_head *t)
{
    if (t->key_size == 0)
        return "there is no line key-size";
    if (t->slots == 0)
        return "there is no line slots";
    if (t->seeded && t->scrambles > 0)
        return "there are lines of seed and of scramble";
    if (!t->seeded && t->scrambles == 0)
        return "there is no line seed, and none of scramble";
    if (!t->seeded &&
        (t->first > t->last || t->scrambles != t->last - t->first + 1))
        return "the scramble does not have a number for each character from "
               "first to last";
    return NULL;
}

/* ---- to an image ---- */

/* The values that create has no argument for. */
static void write_scramble(const struct dump_head *t, uint8_t *image)
{
    write_u32(image + MULTIPLIER_AT, (uint32_t)t->multiplier);
    write_u32(image + START_AT, (uint32_t)t->start);
    write_u32(image + FIRST_AT, (uint32_t)t->first);
    write_u32(image + LAST_AT, (uint32_t)t->last);
    memset(image + SCRAMBLE_AT, 0, SCRAMBLE_END - SCRAMBLE_AT);
    for (size_t i = 0; i < t->scrambles; i++)
        write_u32(image + SCRAMBLE_AT + 4 * i, t->scramble[i]);
}

int64_t dump_head_create(const struct dump_head *t, uint8_t *image,
                         size_t length)
{
    uint32_t number = bhtf_create(image, length, (uint32_t)t->key_size,
                                  (uint32_t)t->slots, (uint32_t)t->seed);
    uint32_t count;

    if (number != BHTF_ACCEPTED)
        return number;
    write_u32(image + SERIAL_AT, (uint32_t)t->serial);
    if (!t->seeded)
        write_scramble(t, image);
    return t->version.number[0] != 0 ? version_give(image, length, t->version)
                                     : bhtf_count(image, length, &count);
}
