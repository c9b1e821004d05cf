/* Conversion by plain C, tuned C and the library, in one process and in turns,
 * each of the same file into a target of its own; which is first changes from
 * sample to sample. The check that conversion begins with is inside. Answers
 * and targets are compared at each sample. Then texts of 16 MiB and more, in
 * version 2.0.0, beside memcpy of their bytes: stored in their place, appended
 * to nothing, and carried by a conversion from version 1.
 *
 * convert [SAMPLES [SLOTS]]      7 samples if not given, of files of up to so
 *                                many slots, all if not given; long texts with
 *                                all
 * Prints Markdown lines: the library over the faster C, over plain and over
 * tuned C, over memcpy where it is beside, tuned C again over tuned C, and the
 * library's milliseconds. A ratio is the median over the samples. Ends with
 * "N passed, M failed". */
#define _POSIX_C_SOURCE 200809L
#include "../tests/calls.h"
#include "samples.h"
#include "used.h"

#include <stdio.h>
#include <stdlib.h>
#include <string.h>

extern const struct calls plain_c;
extern const struct calls tuned_c;

enum { SAMPLES = 7, MOST = 15, KEY = 4, SLOTS = 64 };
enum { NEW = 1, REPLACE = 2 };
enum { PLAIN, TUNED, LIBRARY, AGAIN, CALLS, COPY = CALLS, SUBJECTS };

#define MIB (1u << 20)
#define LONGEST_OF_1 16777215u

static const struct calls *const calls[CALLS] = {
    &plain_c, &tuned_c, &subject, &tuned_c
};

static double spent[SUBJECTS][MOST];

static void *room_for(size_t size)
{
    void *room = malloc(size);

    if (room == NULL)
        exit(2);
    memset(room, 1, size);
    return room;
}

static double ratio(int of, int base, int samples)
{
    double ratios[MOST];

    for (int i = 0; i < samples; i++)
        ratios[i] = spent[of][i] / spent[base][i];
    return median(ratios, samples);
}

static void print_line(const char *what, int samples, int beside_copy)
{
    int faster = median(spent[PLAIN], samples) < median(spent[TUNED], samples)
                     ? PLAIN : TUNED;
    char copy[32] = "";

    if (beside_copy)
        snprintf(copy, sizeof copy, "%.2f", ratio(LIBRARY, COPY, samples));
    printf("| %s | %.2f | %.2f | %.2f | %s | %.2f | %.1f |\n", what,
           ratio(LIBRARY, faster, samples), ratio(LIBRARY, PLAIN, samples),
           ratio(LIBRARY, TUNED, samples), copy,
           ratio(AGAIN, TUNED, samples), median(spent[LIBRARY], samples));
    fflush(stdout);
}

/* ---- files that were in use ---- */

/* All of them once on the file; what the first leaves is kept to compare. */
static void convert_once(const uint8_t *file, uint8_t *target, uint8_t *kept,
                         size_t length, int round)
{
    for (int i = 0; i < CALLS; i++) {
        int s = (i + round) % CALLS;
        uint8_t *to = i == 0 ? kept : target;
        double from = now();
        uint32_t answer = calls[s]->convert(file, length, to, length);

        spent[s][round] = (now() - from) / 1e6;
        expect("the answer", answer == 0);
        if (i > 0)
            expect("the targets", memcmp(kept, target, length) == 0);
    }
}

static void compare(const struct used_size *z, const struct used_kind *k,
                    int samples)
{
    uint8_t *file = room_for(z->length);
    uint8_t *target = room_for(z->length);
    uint8_t *kept = room_for(z->length);
    char what[64];

    expect("the file is made", k->make(file, z) == 0);
    for (int i = 0; i < samples; i++)
        convert_once(file, target, kept, z->length, i);
    snprintf(what, sizeof what, "%u slots, %s, to 2.0.0", z->slots, k->name);
    print_line(what, samples, 0);
    memcpy(file, kept, z->length);
    for (int i = 0; i < samples; i++)
        convert_once(file, target, kept, z->length, i);
    snprintf(what, sizeof what, "%u slots, %s, back", z->slots, k->name);
    print_line(what, samples, 0);
    free(kept);
    free(target);
    free(file);
}

/* ---- long texts ---- */

/* A file of 2.0.0 without points, made from the first slice in the second. */
static void fresh_2(uint8_t *file, uint8_t *target, size_t length)
{
    expect("create", tuned_c.create(file, length, KEY, SLOTS, 1) == 0);
    expect("fresh", tuned_c.convert(file, length, target, length) == 0);
}

/* A text of so many bytes, in new space, then in its place. */
static void store_long(uint32_t size, int samples)
{
    size_t length = size + 2 * MIB;
    uint8_t *file = room_for(length), *image = room_for(length);
    uint8_t *text = room_for(size);
    const uint8_t *key = (const uint8_t *)"scan";
    char what[64];

    fresh_2(file, image, length);
    for (uint32_t mode = NEW; mode <= REPLACE; mode++) {
        for (int round = 0; round < samples; round++)
            for (int i = 0; i < SUBJECTS; i++) {
                int s = (i + round) % SUBJECTS;
                uint32_t answer = 0;
                double from;

                if (mode == NEW && s != COPY)
                    fresh_2(file, image, length);
                from = now();
                if (s == COPY)
                    memcpy(image + 8192, text, size);
                else
                    answer = calls[s]->add(image, length, key, KEY, text, size,
                                           mode);
                spent[s][round] = (now() - from) / 1e6;
                expect("the answer", answer == 0);
                if (s == COPY && mode == REPLACE)
                    expect("again", tuned_c.add(image, length, key, KEY, text,
                                                size, REPLACE) == 0);
                if (s != COPY)
                    expect("the text", memcmp(image + 4096 + 5, text,
                                              size) == 0);
            }
        snprintf(what, sizeof what, "%u MiB %s", size / MIB,
                 mode == NEW ? "in new space" : "in their place");
        print_line(what, samples, 1);
    }
    free(text);
    free(image);
    free(file);
}

/* So many of version 1's longest texts into version 2.0.0. */
static void convert_long(uint32_t count, int samples)
{
    size_t length = (size_t)(count + 1) * 16 * MIB;
    uint8_t *file = room_for(length), *target = room_for(length);
    uint8_t *kept = room_for(length), *text = room_for(LONGEST_OF_1);
    char what[64];

    tuned_c.create(file, length, KEY, SLOTS, 1);
    for (uint32_t i = 0; i < count; i++) {
        uint8_t key[KEY] = { 's', 'c', 'a', (uint8_t)('0' + i) };

        text[i] = (uint8_t)i;
        expect("a text", tuned_c.add(file, length, key, KEY, text,
                                     LONGEST_OF_1, NEW) == 0);
    }
    for (int i = 0; i < samples; i++) {
        double from;

        convert_once(file, target, kept, length, i);
        from = now();
        memcpy(target, file, length);
        spent[COPY][i] = (now() - from) / 1e6;
    }
    snprintf(what, sizeof what, "%u texts of 16 MiB, to 2.0.0", count);
    print_line(what, samples, 1);
    free(text);
    free(kept);
    free(target);
    free(file);
}

int main(int argc, char **argv)
{
    int samples = argc > 1 ? atoi(argv[1]) : SAMPLES;
    unsigned long slots = argc > 2 ? strtoul(argv[2], NULL, 10) : 1048576;

    if (samples < 1 || samples > MOST)
        return 2;
    for (size_t i = 0; i < used_size_count; i++)
        for (size_t j = 0; j < used_kind_count; j++)
            if (used_sizes[i].slots <= slots)
                compare(&used_sizes[i], &used_kinds[j], samples);
    store_long(16 * MIB, samples);
    if (slots >= 1048576) {
        store_long(256 * MIB, samples);
        convert_long(8, samples);
    }
    return expected();
}
