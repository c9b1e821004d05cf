/* Names in ranges: plain C, tuned C and the library select from one table, half
 * full, in one process and in turns; which is first changes from sample to
 * sample. What they list is compared.
 *
 * ranges [SAMPLES [SLOTS]]       7 samples if not given, of tables of up to so
 *                                many slots, 1,048,576 if not given
 * ranges once WHICH K SLOTS      the half legible one alone, by plain, tuned or
 *                                library, for counting instructions
 * Prints Markdown lines: the library over the faster C, over plain and over
 * tuned C, tuned C again over tuned C, and the library's nanoseconds a slot. A
 * ratio is the median over the samples. Ends with "N passed, M failed". */
#define _POSIX_C_SOURCE 200809L
#include "../tests/calls.h"
#include "samples.h"

#include <stdio.h>
#include <stdlib.h>
#include <string.h>

extern const struct calls plain_c;
extern const struct calls tuned_c;

enum { KEY_MAX = 32, SAMPLES = 7, MOST = 15, AT_A_TIME = 65536, APPEND = 3 };
enum { PLAIN, TUNED, LIBRARY, AGAIN, SUBJECTS };

static const struct calls *const calls[SUBJECTS] = {
    &plain_c, &tuned_c, &subject, &tuned_c
};
static const char *const which[] = { "plain", "tuned", "library" };
static const uint32_t key_sizes[] = { 4, 8, 16, 32 };
static const uint32_t tables[] = { 5507, 65536, 1048576 };

struct table {
    uint32_t key_size;
    uint32_t slots;
    uint8_t *image;
    size_t length;
    uint8_t *lists[SUBJECTS];
    size_t list_len;
};

struct ranges {
    uint8_t lowest[KEY_MAX];
    uint8_t highest[KEY_MAX];
};

static void *room_for(size_t size)
{
    void *room = malloc(size);

    if (room == NULL)
        exit(2);
    return room;
}

/* ---- the table ---- */

/* A letter for each five bits of the number scattered, then dots. */
static void name_of(uint8_t *key, uint32_t key_size, uint32_t i)
{
    uint32_t number = (i + 1) * 2654435761u >> 2;

    for (uint32_t k = 0; k < key_size; k++, number >>= 5)
        key[k] = (uint8_t)(k < 6 ? 'A' + number % 32 : '.');
}

static void make_table(struct table *t, uint32_t key_size, uint32_t slots)
{
    size_t end = 2048 + slots * (size_t)(key_size + 4);
    uint8_t key[KEY_MAX];

    t->key_size = key_size;
    t->slots = slots;
    t->length = (end + 4095) / 4096 * 4096;
    t->image = room_for(t->length);
    t->list_len = 4 * (size_t)slots;
    for (int s = 0; s < SUBJECTS; s++)
        t->lists[s] = room_for(t->list_len);
    expect("create", tuned_c.create(t->image, t->length, key_size, slots, 1) ==
                         0);
    for (uint32_t i = 0; i < slots / 2; i++) {
        name_of(key, key_size, i);
        tuned_c.add(t->image, t->length, key, key_size, NULL, 0, APPEND);
    }
}

static void drop_table(struct table *t)
{
    for (int s = 0; s < SUBJECTS; s++)
        free(t->lists[s]);
    free(t->image);
}

/* ---- ranges ---- */

static void one_name(struct ranges *r, uint32_t key_size)
{
    name_of(r->lowest, key_size, 7);
    name_of(r->highest, key_size, 7);
}

/* Every second letter is scraped off. */
static void half_legible(struct ranges *r, uint32_t key_size)
{
    one_name(r, key_size);
    for (uint32_t i = 0; i < key_size; i += 2) {
        r->lowest[i] = 0;
        r->highest[i] = 255;
    }
}

static void any_name(struct ranges *r, uint32_t key_size)
{
    memset(r->lowest, 0, key_size);
    memset(r->highest, 255, key_size);
}

static const struct kind {
    const char *name;
    void (*choose)(struct ranges *r, uint32_t key_size);
} kinds[] = {
    { "one name", one_name },
    { "half legible", half_legible },
    { "any name", any_name },
};

/* ---- samples ---- */

static double spent[SUBJECTS][MOST];
static uint32_t found[SUBJECTS];

static uint32_t select_by(const struct table *t, const struct ranges *r, int s)
{
    return calls[s]->select(t->image, t->length, r->lowest, t->key_size,
                            r->highest, t->key_size, t->lists[s], t->list_len,
                            &found[s]);
}

static void sample(const struct table *t, const struct ranges *r, int round)
{
    uint32_t turns = 1 + AT_A_TIME / t->slots;

    for (int i = 0; i < SUBJECTS; i++) {
        int s = (i + round) % SUBJECTS;
        uint32_t answers = select_by(t, r, s);
        double from = now();

        for (uint32_t k = 0; k < turns; k++)
            answers |= select_by(t, r, s);
        spent[s][round] = (now() - from) / turns / t->slots;
        expect("the answer", answers == 0);
    }
    for (int s = 1; s < SUBJECTS; s++)
        expect("the lists", found[s] == found[0] &&
                                memcmp(t->lists[s], t->lists[0],
                                       4 * (size_t)found[0]) == 0);
}

static double ratio(int of, int base, int samples)
{
    double ratios[MOST];

    for (int i = 0; i < samples; i++)
        ratios[i] = spent[of][i] / spent[base][i];
    return median(ratios, samples);
}

static void compare(const struct table *t, const struct kind *k, int samples)
{
    struct ranges r;
    int faster;

    k->choose(&r, t->key_size);
    for (int i = 0; i < samples; i++)
        sample(t, &r, i);
    faster = median(spent[PLAIN], samples) < median(spent[TUNED], samples)
                 ? PLAIN : TUNED;
    printf("| %s | %u | %u | %u | %.2f | %.2f | %.2f | %.2f | %.2f |\n",
           k->name, t->key_size, t->slots, found[LIBRARY],
           ratio(LIBRARY, faster, samples), ratio(LIBRARY, PLAIN, samples),
           ratio(LIBRARY, TUNED, samples), ratio(AGAIN, TUNED, samples),
           median(spent[LIBRARY], samples));
    fflush(stdout);
}

static void measure(uint32_t key_size, uint32_t slots, int samples)
{
    struct table t;

    make_table(&t, key_size, slots);
    for (size_t i = 0; i < sizeof kinds / sizeof *kinds; i++)
        compare(&t, &kinds[i], samples);
    drop_table(&t);
}

static int once(const char *name, uint32_t key_size, uint32_t slots)
{
    struct table t;
    struct ranges r;
    int s = 0;

    while (s < AGAIN && strcmp(which[s], name) != 0)
        s++;
    if (s == AGAIN || key_size < 1 || key_size > KEY_MAX)
        return 2;
    make_table(&t, key_size, slots);
    half_legible(&r, key_size);
    expect("the answer", select_by(&t, &r, s) == 0);
    drop_table(&t);
    return expected();
}

int main(int argc, char **argv)
{
    int samples = argc > 1 ? atoi(argv[1]) : SAMPLES;
    unsigned long most = argc > 2 ? strtoul(argv[2], NULL, 10) : 1048576;

    if (argc == 5 && strcmp(argv[1], "once") == 0)
        return once(argv[2], (uint32_t)atoi(argv[3]), (uint32_t)atoi(argv[4]));
    if (samples < 1 || samples > MOST)
        return 2;
    for (size_t n = 0; n < sizeof tables / sizeof *tables; n++)
        for (size_t k = 0; k < sizeof key_sizes / sizeof *key_sizes; k++)
            if (tables[n] <= most)
                measure(key_sizes[k], tables[n], samples);
    return expected();
}
