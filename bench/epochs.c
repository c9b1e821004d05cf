/* The last epoch of a name up to another one: plain C, tuned C and the library
 * look for it in one table, half full, in one process and in turns; which is
 * first changes from sample to sample. What they show is compared.
 *
 * epochs [SAMPLES [SLOTS]]       7 samples if not given, of tables of up to so
 *                                many slots, 1,048,576 if not given
 * epochs once WHICH K SLOTS      a name in the middle of its epochs, by plain,
 *                                tuned or library, for counting instructions
 * Prints Markdown lines: the library over the faster C, over plain and over
 * tuned C, tuned C again over tuned C, and the library's nanoseconds a slot. A
 * ratio is the median over the samples. Ends with "N passed, M failed". */
#define _POSIX_C_SOURCE 200809L
#include "../tests/calls.h"
#include "samples.h"

#include <stdio.h>
#include <stdlib.h>
#include <string.h>

extern const struct calls plain_c;
extern const struct calls tuned_c;

enum { KEY_MAX = 32, SAMPLES = 7, MOST = 15, AT_A_TIME = 65536, APPEND = 3 };
enum { EPOCHS = 52 }; /* of a name: a year of weeks */
enum { PLAIN, TUNED, LIBRARY, AGAIN, SUBJECTS };

static const struct calls *const calls[SUBJECTS] = {
    &plain_c, &tuned_c, &subject, &tuned_c
};
static const char *const which[] = { "plain", "tuned", "library" };
static const uint32_t key_sizes[] = { 8, 16, 32 };
static const uint32_t tables[] = { 5507, 65536, 1048576 };

struct table {
    uint32_t key_size;
    uint32_t slots;
    uint8_t *image;
    size_t length;
};

/* ---- the table ---- */

/* Four letters for the number, then dots, then the epoch. */
static void name_of(uint8_t *key, uint32_t key_size, uint32_t i,
                    uint32_t epoch)
{
    uint32_t size = key_size - 4;

    for (uint32_t k = 0; k < size; k++, i /= 32)
        key[k] = (uint8_t)(k < 4 ? 'A' + i % 32 : '.');
    for (uint32_t k = 0; k < 4; k++)
        key[size + k] = (uint8_t)(epoch >> (24 - 8 * k));
}

static void make_table(struct table *t, uint32_t key_size, uint32_t slots)
{
    size_t end = 2048 + slots * (size_t)(key_size + 4);
    uint8_t key[KEY_MAX];

    t->key_size = key_size;
    t->slots = slots;
    t->length = (end + 4095) / 4096 * 4096;
    t->image = malloc(t->length);
    if (t->image == NULL)
        exit(2);
    expect("create", tuned_c.create(t->image, t->length, key_size, slots, 1) ==
                         0);
    for (uint32_t i = 0; i < slots / 2; i++) {
        name_of(key, key_size, i / EPOCHS, 100 + i % EPOCHS);
        tuned_c.add(t->image, t->length, key, key_size, NULL, 0, APPEND);
    }
}

/* ---- samples ---- */

/* What is asked: the name's number and t; what is due. */
static const struct kind {
    const char *name;
    uint32_t number;
    uint32_t epoch;
    uint32_t answer;
} kinds[] = {
    { "between epochs", 17, 125, 0 },
    { "the last one", 17, 0xFFFFFFFFu, 0 },
    { "before the first", 17, 99, 14 },
    { "no such name", 1000000, 125, 14 },
};

static double spent[SUBJECTS][MOST];
static uint32_t shown[SUBJECTS];

static uint32_t ask(const struct table *t, const struct kind *k, int s)
{
    uint8_t key[KEY_MAX];
    uint32_t offset, length;
    uint32_t answer;

    name_of(key, t->key_size, k->number, 0);
    answer = calls[s]->at_epoch(t->image, t->length, key, t->key_size - 4,
                                k->epoch, &shown[s], &offset, &length);
    return (answer ^ k->answer) | offset | length;
}

static void sample(const struct table *t, const struct kind *k, int round)
{
    uint32_t turns = 1 + AT_A_TIME / t->slots;

    for (int i = 0; i < SUBJECTS; i++) {
        int s = (i + round) % SUBJECTS;
        uint32_t wrong = ask(t, k, s);
        double from = now();

        for (uint32_t n = 0; n < turns; n++)
            wrong |= ask(t, k, s);
        spent[s][round] = (now() - from) / turns / t->slots;
        expect("the answer", wrong == 0);
    }
    for (int s = 1; s < SUBJECTS; s++)
        expect("the epoch", shown[s] == shown[0]);
}

static double ratio(int of, int base, int samples)
{
    double ratios[MOST];

    for (int i = 0; i < samples; i++)
        ratios[i] = spent[of][i] / spent[base][i];
    return median(ratios, samples);
}

static void compare(const struct table *t, const struct kind *k, int samples)
{
    int faster;

    for (int i = 0; i < samples; i++)
        sample(t, k, i);
    faster = median(spent[PLAIN], samples) < median(spent[TUNED], samples)
                 ? PLAIN : TUNED;
    printf("| %s | %u | %u | %.2f | %.2f | %.2f | %.2f | %.2f |\n", k->name,
           t->key_size, t->slots, ratio(LIBRARY, faster, samples),
           ratio(LIBRARY, PLAIN, samples), ratio(LIBRARY, TUNED, samples),
           ratio(AGAIN, TUNED, samples), median(spent[LIBRARY], samples));
    fflush(stdout);
}

static void measure(uint32_t key_size, uint32_t slots, int samples)
{
    struct table t;

    make_table(&t, key_size, slots);
    for (size_t i = 0; i < sizeof kinds / sizeof *kinds; i++)
        compare(&t, &kinds[i], samples);
    free(t.image);
}

static int once(const char *name, uint32_t key_size, uint32_t slots)
{
    struct table t;
    int s = 0;

    while (s < AGAIN && strcmp(which[s], name) != 0)
        s++;
    if (s == AGAIN || key_size < 8 || key_size > KEY_MAX)
        return 2;
    make_table(&t, key_size, slots);
    expect("the answer", ask(&t, &kinds[0], s) == 0);
    free(t.image);
    return expected();
}

int main(int argc, char **argv)
{
    int samples = argc > 1 ? atoi(argv[1]) : SAMPLES;
    unsigned long most = argc > 2 ? strtoul(argv[2], NULL, 10) : 1048576;

    if (argc == 5 && strcmp(argv[1], "once") == 0)
        return once(argv[2], (uint32_t)atoi(argv[3]), (uint32_t)atoi(argv[4]));
    if (samples < 1 || samples > MOST)
        return 2;
    for (size_t n = 0; n < sizeof tables / sizeof *tables; n++)
        for (size_t k = 0; k < sizeof key_sizes / sizeof *key_sizes; k++)
            if (tables[n] <= most)
                measure(key_sizes[k], tables[n], samples);
    return expected();
}
