/* Every call at 1,048,576 slots and some 500 MB of messages: plain C, tuned C
 * and the library, each on an image of its own, in one process and in turns;
 * which is first changes from sample to sample. Answers are compared at each
 * sample, the images byte for byte in the end.
 *
 * large [ROUNDS]      3 if not given
 * Prints Markdown lines: the library over the faster C, over plain and over
 * tuned C, tuned C again over tuned C, and the library's nanoseconds a call.
 * A ratio is the median over the samples. Ends with "N passed, M failed". */
#define _POSIX_C_SOURCE 200809L
#include "../tests/calls.h"
#include "samples.h"

#include <stdio.h>
#include <stdlib.h>
#include <string.h>

extern const struct calls plain_c;
extern const struct calls tuned_c;

enum { KEY = 16, SLOTS = 1048576, POINTS = 943718, LENGTH = 671088640 };
enum { SHORTEST = 430, LONGEST = 629, POOL = 65536 };
enum { NEW = 1, REPLACE = 2, APPEND = 3 };
enum { LOOKUPS = 100000, WRITES = 20000, ROUNDS_MAX = 15 };
enum { PLAIN, TUNED, LIBRARY, AGAIN, SUBJECTS };

static const struct calls *const calls[SUBJECTS] = {
    &plain_c, &tuned_c, &subject, &tuned_c
};
static uint8_t *images[SUBJECTS];
static uint8_t pool[POOL + LONGEST + ROUNDS_MAX + 1];
static uint32_t held[POINTS]; /* numbers of the names that are in the file */
static uint32_t fresh;        /* the next number never used */
/* ---- inputs ---- */

static uint64_t state;

static uint32_t draw_below(uint32_t bound)
{
    uint64_t z = state += 0x9E3779B97F4A7C15u;

    z = (z ^ (z >> 30)) * 0xBF58476D1CE4E5B9u;
    z = (z ^ (z >> 27)) * 0x94D049BB133111EBu;
    return (uint32_t)((((z ^ (z >> 31)) >> 32) * bound) >> 32);
}

/* The name of a number: no two numbers have the same. */
static void name_of(uint8_t *key, uint32_t number)
{
    uint32_t scattered = (number + 1) * 2654435761u;

    memcpy(key, "point ", 6);
    for (int i = KEY - 1; i >= 6; i--) {
        key[i] = (uint8_t)('0' + scattered % 10);
        scattered /= 10;
    }
}

static uint32_t length_of(uint32_t number)
{
    return SHORTEST + number * 2246822519u % (LONGEST - SHORTEST + 1);
}

static const uint8_t *text_of(uint32_t number)
{
    return pool + number * 3266489917u % POOL;
}

/* ---- the calls of a sample, drawn beforehand, the same for every subject */

struct drawn {
    uint32_t count;
    uint32_t mode;
    uint8_t (*keys)[KEY];
    uint8_t (*others)[KEY];
    uint32_t *number;
    uint32_t *length;
};

static struct drawn drawn;

static void draw_held(uint32_t count, uint32_t longer)
{
    drawn.count = count;
    for (uint32_t i = 0; i < count; i++) {
        uint32_t number = held[draw_below(POINTS)];

        name_of(drawn.keys[i], number);
        drawn.number[i] = number;
        drawn.length[i] = length_of(number) + longer;
    }
}

static void draw_misses(uint32_t count)
{
    drawn.count = count;
    for (uint32_t i = 0; i < count; i++)
        name_of(drawn.keys[i], 2u * SLOTS + draw_below(SLOTS));
}

static void draw_adds(void)
{
    drawn.count = POINTS;
    drawn.mode = NEW;
    fresh = POINTS;
    for (uint32_t i = 0; i < POINTS; i++) {
        held[i] = i;
        name_of(drawn.keys[i], i);
        drawn.number[i] = i;
        drawn.length[i] = length_of(i);
    }
}

static void draw_swaps(uint32_t count)
{
    drawn.count = count;
    for (uint32_t i = 0; i < count; i++) {
        uint32_t *point = &held[draw_below(POINTS)];

        name_of(drawn.keys[i], *point);
        *point = fresh++;
        name_of(drawn.others[i], *point);
        drawn.number[i] = *point;
        drawn.length[i] = length_of(*point);
    }
}

/* ---- the phases: each answers a digest ---- */

static uint64_t mix(uint64_t digest, uint64_t value)
{
    return (digest ^ value) * 0x9E3779B97F4A7C15u;
}

static uint64_t create(const struct calls *c, uint8_t *image)
{
    return c->create(image, LENGTH, KEY, SLOTS, 1);
}

static uint64_t add(const struct calls *c, uint8_t *image)
{
    uint64_t digest = 0;

    for (uint32_t i = 0; i < drawn.count; i++)
        digest |= c->add(image, LENGTH, drawn.keys[i], KEY,
                         text_of(drawn.number[i]), drawn.length[i],
                         drawn.mode);
    return digest;
}

static uint64_t look_up(const struct calls *c, uint8_t *image)
{
    uint64_t digest = 0;

    for (uint32_t i = 0; i < drawn.count; i++) {
        uint32_t offset, length;

        digest = mix(digest, c->lookup(image, LENGTH, drawn.keys[i], KEY,
                                       &offset, &length));
        digest = mix(digest, (uint64_t)offset << 32 | length);
    }
    return digest;
}

static uint64_t swap(const struct calls *c, uint8_t *image)
{
    uint64_t digest = 0;

    for (uint32_t i = 0; i < drawn.count; i++) {
        digest |= c->remove(image, LENGTH, drawn.keys[i], KEY);
        digest |= c->add(image, LENGTH, drawn.others[i], KEY,
                         text_of(drawn.number[i]), drawn.length[i], NEW);
    }
    return digest;
}

static uint64_t walk(const struct calls *c, uint8_t *image)
{
    uint32_t from = 0, points = 0, slot, at;
    uint64_t digest = 0;

    while (c->walk(image, LENGTH, from, &slot, &at) == 0 && at != 0) {
        digest = mix(digest, at);
        from = slot + 1;
        points++;
    }
    return points == POINTS ? digest : 0;
}

static uint64_t check(const struct calls *c, uint8_t *image)
{
    uint32_t verdict, slot;
    uint64_t answer = c->check(image, LENGTH, &verdict, &slot);

    return answer << 33 | (uint64_t)verdict << 32 | slot;
}

/* ---- samples and the table ---- */

static const struct phase {
    const char *name;
    uint64_t (*run)(const struct calls *, uint8_t *);
    uint32_t calls;
} phases[] = {
    { "create, the whole image", create, 1 },
    { "build, a point", add, POINTS },
    { "lookup hit", look_up, LOOKUPS },
    { "lookup miss", look_up, WRITES },
    { "replace in place", add, WRITES },
    { "replace in new space", add, WRITES },
    { "append", add, WRITES },
    { "delete and add in turn", swap, WRITES },
    { "walk, a point", walk, POINTS },
    { "check, a point", check, POINTS },
};

enum { PHASES = sizeof phases / sizeof *phases };

static double spent[PHASES][SUBJECTS][ROUNDS_MAX];

static void draw(int phase, int round)
{
    switch (phase) {
    case 1: draw_adds(); break;
    case 2: draw_held(LOOKUPS, 0); break;
    case 3: draw_misses(WRITES); break;
    case 4: draw_held(WRITES, 0); drawn.mode = REPLACE; break;
    case 5: draw_held(WRITES, (uint32_t)round + 1); drawn.mode = REPLACE; break;
    case 6: draw_held(WRITES, 0); drawn.mode = APPEND;
        for (uint32_t i = 0; i < drawn.count; i++)
            drawn.length[i] = 4;
        break;
    case 7: draw_swaps(WRITES); break;
    }
}

static void sample(int phase, int round)
{
    uint64_t answers[SUBJECTS];

    draw(phase, round);
    for (int i = 0; i < SUBJECTS; i++) {
        int s = (i + round) % SUBJECTS;
        double from = now();

        answers[s] = phases[phase].run(calls[s], images[s]);
        spent[phase][s][round] = (now() - from) / phases[phase].calls;
    }
    for (int s = 1; s < SUBJECTS; s++)
        expect(phases[phase].name, answers[s] == answers[0]);
}

static double ratio(int phase, int subject, int base, int rounds)
{
    double ratios[ROUNDS_MAX];

    for (int i = 0; i < rounds; i++)
        ratios[i] = spent[phase][subject][i] / spent[phase][base][i];
    return median(ratios, rounds);
}

static void print_line(int phase, int rounds)
{
    int faster = median(spent[phase][PLAIN], rounds) <
                 median(spent[phase][TUNED], rounds) ? PLAIN : TUNED;

    printf("| %s | %.2f | %.2f | %.2f | %.2f | %.0f |\n", phases[phase].name,
           ratio(phase, LIBRARY, faster, rounds),
           ratio(phase, LIBRARY, PLAIN, rounds),
           ratio(phase, LIBRARY, TUNED, rounds),
           ratio(phase, AGAIN, TUNED, rounds),
           median(spent[phase][LIBRARY], rounds));
}

static void *room_for(size_t count, size_t size)
{
    void *room = calloc(count, size);

    if (room == NULL)
        exit(2);
    return room;
}

static void prepare(void)
{
    for (int s = 0; s < SUBJECTS; s++) {
        images[s] = room_for(LENGTH, 1);
        memset(images[s], 1, LENGTH);
    }
    drawn.keys = room_for(POINTS, sizeof *drawn.keys);
    drawn.others = room_for(WRITES, sizeof *drawn.others);
    drawn.number = room_for(POINTS, sizeof *drawn.number);
    drawn.length = room_for(POINTS, sizeof *drawn.length);
    for (size_t i = 0; i < sizeof pool; i++)
        pool[i] = (uint8_t)('a' + draw_below(26));
}

int main(int argc, char **argv)
{
    int rounds = argc > 1 ? atoi(argv[1]) : 3;

    if (rounds < 1 || rounds > ROUNDS_MAX)
        return 2;
    prepare();
    for (int round = 0; round < rounds; round++)
        for (int phase = 0; phase < PHASES; phase++)
            sample(phase, round);
    for (int s = 1; s < SUBJECTS; s++)
        expect("the images", memcmp(images[0], images[s], LENGTH) == 0);
    for (int phase = 0; phase < PHASES; phase++)
        print_line(phase, rounds);
    return expected();
}
