/* A whole growth, call by call: the mean, the 99th percentile and the longest
 * call, by plain C, tuned C and the library, each on a pair of its own, in one
 * process and in turns. The old table has half as many slots and is 90 % full,
 * with messages of 32 bytes. It is emptied once by adds of new points, which put
 * 13, and once by deletes of points, which do not. Then what takes the place of
 * growth: the larger image made at once, every point added.
 *
 * grow [ROUNDS [SLOTS]]      of the largest table; one round and 65,536 slots if
 *                            not given
 * At 1,048,576 slots a whole growth takes some 60,000 calls: there 40 of them are
 * timed at each eighth of the way, and between them points are moved by the calls
 * on one image, which leave the same bytes.
 *
 * Prints Markdown lines, in microseconds of the processor. Answers are compared
 * at each call, both images byte for byte in the end. Ends with "N passed, M
 * failed". */
#define _POSIX_C_SOURCE 200809L
#include "../tests/calls.h"
#include "grow.h"
#include "samples.h"

#include <stdio.h>
#include <stdlib.h>
#include <string.h>

extern const struct calls plain_c;
extern const struct calls tuned_c;

enum { NEW = 1, MOVES = 8 };
enum { WHOLE = 65536, EIGHTHS = 8, TIMED = 40 };
enum { PLAIN, TUNED, LIBRARY, SUBJECTS };

static const char *const who[SUBJECTS] = { "plain C", "tuned C", "library" };
static const struct calls *const calls[SUBJECTS] = {
    &plain_c, &tuned_c, &subject
};

struct pair {
    uint8_t *old;
    uint8_t *new;
};

static struct pair pairs[SUBJECTS];
static size_t old_length, new_length;
static uint32_t points;  /* in the old table at first */
static uint32_t fresh;   /* the number of the next new point */
static struct times times[SUBJECTS];

static void *room_for(size_t size)
{
    void *room = calloc(1, size);

    if (room == NULL)
        exit(2);
    return room;
}

static size_t length_for(uint32_t slots, uint32_t messages)
{
    size_t table = 2048 + (size_t)slots * (KEY + 4);
    size_t room = (size_t)messages * (4 + TEXT);

    return (table + 4095) / 4096 * 4096 + (room + 4095) / 4096 * 4096;
}

static uint32_t count_in(const uint8_t *image)
{
    return (uint32_t)image[20] << 24 | (uint32_t)image[21] << 16 |
           (uint32_t)image[22] << 8 | image[23];
}

/* ---- the pairs ---- */

static void make_pairs(uint32_t slots)
{
    uint8_t key[KEY];

    points = slots / 2 / 10 * 9;
    old_length = length_for(slots / 2, points);
    new_length = length_for(slots, points + points / MOVES + 2);
    for (int s = 0; s < SUBJECTS; s++) {
        pairs[s].old = room_for(old_length);
        pairs[s].new = room_for(new_length);
    }
    tuned_c.create(pairs[0].old, old_length, KEY, slots / 2, 1);
    tuned_c.create(pairs[0].new, new_length, KEY, slots, 2);
    for (uint32_t i = 0; i < points; i++) {
        name_of(key, i);
        tuned_c.add(pairs[0].old, old_length, key, KEY, text_of(i), TEXT, NEW);
    }
    expect("the old table", count_in(pairs[0].old) == points);
    fresh = points;
}

/* All start from the first one's pair. */
static void share_pairs(int from)
{
    for (int s = 0; s < SUBJECTS; s++)
        if (s != from) {
            memcpy(pairs[s].old, pairs[from].old, old_length);
            memcpy(pairs[s].new, pairs[from].new, new_length);
        }
}

static void compare_pairs(void)
{
    for (int s = 1; s < SUBJECTS; s++)
        expect("both images",
               memcmp(pairs[s].old, pairs[0].old, old_length) == 0 &&
                   memcmp(pairs[s].new, pairs[0].new, new_length) == 0);
}

static void free_pairs(void)
{
    for (int s = 0; s < SUBJECTS; s++) {
        free(pairs[s].old);
        free(pairs[s].new);
    }
}

/* ---- calls ---- */

/* One call by all, in turns: an add of a new point, or a delete of one of the
 * first. */
static void time_call(int adds, uint32_t number)
{
    uint8_t key[KEY];

    name_of(key, number);
    for (int i = 0; i < SUBJECTS; i++) {
        int s = (int)((number + (uint32_t)i) % SUBJECTS);
        const struct pair *p = &pairs[s];
        double from = now();
        uint32_t answer =
            adds ? calls[s]->grow_add(p->old, old_length, p->new, new_length,
                                      key, KEY, text_of(number), TEXT, NEW)
                 : calls[s]->grow_remove(p->old, old_length, p->new,
                                         new_length, key, KEY);

        note_time(&times[s], now() - from);
        expect("the answer", answer == 0);
    }
}

/* The same without growth's calls, on tuned C's pair, from that slot on. */
static void step_over(uint32_t *slot)
{
    const struct pair *p = &pairs[TUNED];
    uint8_t key[KEY];

    name_of(key, fresh);
    tuned_c.add(p->new, new_length, key, KEY, text_of(fresh), TEXT, NEW);
    fresh++;
    for (int i = 0; i < MOVES; i++) {
        uint32_t at, offset, length;

        tuned_c.walk(p->old, old_length, *slot, slot, &at);
        if (at == 0)
            return;
        memcpy(key, p->old + at, KEY);
        tuned_c.lookup(p->old, old_length, key, KEY, &offset, &length);
        tuned_c.add(p->new, new_length, key, KEY, p->old + offset, length,
                    NEW);
        tuned_c.remove(p->old, old_length, key, KEY);
    }
}

/* Some calls at each eighth of the way, and the last ones. */
static void grow_by_samples(void)
{
    uint32_t all = points / MOVES, slot = 0, done = 0;

    for (uint32_t e = 0; e <= EIGHTHS; e++) {
        uint32_t begin = e < EIGHTHS ? all / EIGHTHS * e : all - TIMED;

        for (; done < begin; done++)
            step_over(&slot);
        share_pairs(TUNED);
        for (uint32_t i = 0; i < TIMED; i++, done++)
            time_call(1, fresh++);
        compare_pairs();
    }
}

static void grow_by_adds(void)
{
    while (count_in(pairs[0].old) > 0)
        time_call(1, fresh++);
    compare_pairs();
}

/* Those that are still there, from the first one on. */
static void grow_by_deletes(void)
{
    uint32_t number = 0;

    while (count_in(pairs[0].old) > 0)
        time_call(0, number++);
    compare_pairs();
}

static void print_all(uint32_t slots, const char *what)
{
    for (int s = SUBJECTS - 1; s >= 0; s--)
        print_times(slots, what, who[s], &times[s]);
    for (int s = 0; s < SUBJECTS; s++)
        clear_times(&times[s]);
}

/* ---- at once ---- */

/* A new image with every point of the old one, by the calls on one image. */
static void rebuild(int s, const uint8_t *old)
{
    const struct calls *c = calls[s];
    uint8_t *new = pairs[s].new;
    uint32_t slots = (uint32_t)new[16] << 24 | (uint32_t)new[17] << 16 |
                     (uint32_t)new[18] << 8 | new[19];
    uint32_t slot = 0, at, offset, length;
    double from = now();

    c->create(new, new_length, KEY, slots, 2);
    for (c->walk(old, old_length, 0, &slot, &at); at != 0;
         c->walk(old, old_length, slot + 1, &slot, &at)) {
        c->lookup(old, old_length, old + at, KEY, &offset, &length);
        c->add(new, new_length, old + at, KEY, old + offset, length, NEW);
    }
    note_time(&times[s], now() - from);
    expect("all points", count_in(new) == points);
}

static void grow_at(uint32_t slots, int rounds)
{
    uint8_t *kept_old, *kept_new;

    make_pairs(slots);
    kept_old = room_for(old_length);
    kept_new = room_for(new_length);
    memcpy(kept_old, pairs[0].old, old_length);
    memcpy(kept_new, pairs[0].new, new_length);
    for (int r = 0; r < rounds; r++) {
        fresh = points;
        memcpy(pairs[0].old, kept_old, old_length);
        memcpy(pairs[0].new, kept_new, new_length);
        share_pairs(0);
        for (int s = 0; s < SUBJECTS; s++)
            expect("the start", calls[s]->grow(pairs[s].old, old_length,
                                               pairs[s].new,
                                               new_length) == 0);
        if (slots <= WHOLE)
            grow_by_adds();
        else
            grow_by_samples();
    }
    print_all(slots, slots <= WHOLE ? "add" : "add, sampled");
    for (int r = 0; r < rounds && slots <= WHOLE; r++) {
        memcpy(pairs[0].old, kept_old, old_length);
        memcpy(pairs[0].new, kept_new, new_length);
        share_pairs(0);
        grow_by_deletes();
    }
    if (slots <= WHOLE)
        print_all(slots, "delete");
    for (int r = 0; r < rounds; r++)
        for (int s = 0; s < SUBJECTS; s++)
            rebuild(s, kept_old);
    print_all(slots, "rebuilt at once");
    free(kept_new);
    free(kept_old);
    free_pairs();
}

int main(int argc, char **argv)
{
    static const uint32_t sizes[] = { 5507, 65536, 1048576 };
    int rounds = argc > 1 ? atoi(argv[1]) : 1;
    unsigned long most = argc > 2 ? strtoul(argv[2], NULL, 10) : WHOLE;

    if (rounds < 1)
        return 2;
    for (size_t i = 0; i < sizeof sizes / sizeof *sizes; i++)
        if (sizes[i] <= most)
            grow_at(sizes[i], sizes[i] <= WHOLE ? rounds : 1);
    return expected();
}
