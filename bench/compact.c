/* Compaction by plain C, tuned C and the library, in one process and in turns,
 * each on a copy of the same file; which is first changes from sample to
 * sample. The check that compaction begins with is inside. Answers and images
 * are compared at each sample.
 *
 * compact [SAMPLES [SLOTS]]      7 samples if not given, of files of up to so
 *                                many slots, all if not given
 * Prints Markdown lines: the library over the faster C, over plain and over
 * tuned C, tuned C again over tuned C, and the library's milliseconds. A ratio
 * is the median over the samples. Ends with "N passed, M failed". */
#define _POSIX_C_SOURCE 200809L
#include "../tests/calls.h"
#include "samples.h"
#include "used.h"

#include <stdio.h>
#include <stdlib.h>
#include <string.h>

extern const struct calls plain_c;
extern const struct calls tuned_c;

enum { SAMPLES = 7, MOST = 15 };
enum { PLAIN, TUNED, LIBRARY, AGAIN, SUBJECTS };

static const struct calls *const calls[SUBJECTS] = {
    &plain_c, &tuned_c, &subject, &tuned_c
};

static void *room_for(size_t size)
{
    void *room = malloc(size);

    if (room == NULL)
        exit(2);
    return room;
}

/* ---- samples ---- */

static double spent[SUBJECTS][MOST];

/* All of them once on the file; what the first leaves is kept to compare. */
static void sample(const uint8_t *file, uint8_t *work, uint8_t *kept,
                   size_t length, int round)
{
    for (int i = 0; i < SUBJECTS; i++) {
        int s = (i + round) % SUBJECTS;
        uint8_t *image = i == 0 ? kept : work;
        uint32_t answer;
        double from;

        memcpy(image, file, length);
        from = now();
        answer = calls[s]->compact(image, length);
        spent[s][round] = (now() - from) / 1e6;
        expect("the answer", answer == 0);
        if (i > 0)
            expect("the images", memcmp(kept, work, length) == 0);
    }
}

static double ratio(int of, int base, int samples)
{
    double ratios[MOST];

    for (int i = 0; i < samples; i++)
        ratios[i] = spent[of][i] / spent[base][i];
    return median(ratios, samples);
}

static void compare(const struct used_size *z, const struct used_kind *k,
                    int samples)
{
    uint8_t *file = room_for(z->length);
    uint8_t *work = room_for(z->length);
    uint8_t *kept = room_for(z->length);
    int faster;

    expect("the file is made", k->make(file, z) == 0);
    for (int i = 0; i < samples; i++)
        sample(file, work, kept, z->length, i);
    faster = median(spent[PLAIN], samples) < median(spent[TUNED], samples) ?
             PLAIN : TUNED;
    printf("| %u slots, %s | %.2f | %.2f | %.2f | %.2f | %.1f |\n", z->slots,
           k->name, ratio(LIBRARY, faster, samples),
           ratio(LIBRARY, PLAIN, samples), ratio(LIBRARY, TUNED, samples),
           ratio(AGAIN, TUNED, samples), median(spent[LIBRARY], samples));
    fflush(stdout);
    free(kept);
    free(work);
    free(file);
}

int main(int argc, char **argv)
{
    int samples = argc > 1 ? atoi(argv[1]) : SAMPLES;
    unsigned long slots = argc > 2 ? strtoul(argv[2], NULL, 10) : 1048576;

    if (samples < 1 || samples > MOST)
        return 2;
    for (size_t i = 0; i < used_size_count; i++)
        for (size_t j = 0; j < used_kind_count; j++)
            if (used_sizes[i].slots <= slots)
                compare(&used_sizes[i], &used_kinds[j], samples);
    return expected();
}
