/* The check of the library beside that of tuned C, with a map on the heap, in
 * one process and in turns. Prints for each file the best of the samples of
 * both in microseconds, and the median of the ratios; ends with
 * "N passed, M failed": answers that are equal, and ratios within the bounds.
 *
 * check [SAMPLES]       15 if not given; a run of fewer leaves out the largest
 *                       file */
#define _POSIX_C_SOURCE 200809L
#include "../tests/calls.h"
#include "samples.h"

#include <stdio.h>
#include <stdlib.h>
#include <string.h>

extern const struct calls tuned_c;

enum { KEY = 16, SAMPLES = 15, MOST = 101 };

/* Points and text lengths such that the texts fill the file. */
static const struct file {
    uint32_t slots;
    uint32_t points;
    uint32_t text;
    size_t length;
    double most; /* of the ratio */
} files[] = {
    { 100, 50, 40, 8192, 1.25 },
    { 5507, 2753, 40, 260 * 1024, 1.25 },
    { 65536, 32768, 440, 16777216, 2.5 },
    { 65536, 58982, 249, 16777216, 2.5 },
    { 1048576, 786432, 700, 600u << 20, 2.5 },
};

/* Names in no order: the number of each, scattered. */
static void name_of(uint8_t *key, uint32_t i)
{
    uint32_t number = (i + 1) * 2654435761u;

    snprintf((char *)key, KEY + 1, "point %010lu", (unsigned long)number);
}

static uint8_t *make(const struct file *f)
{
    uint8_t *image = malloc(f->length);
    uint8_t *text = malloc(f->text);
    uint8_t key[KEY + 1];
    uint32_t answers;

    if (image == NULL || text == NULL)
        exit(2);
    memset(text, 't', f->text);
    answers = tuned_c.create(image, f->length, KEY, f->slots, 1);
    for (uint32_t i = 0; i < f->points; i++) {
        name_of(key, i);
        answers |= tuned_c.add(image, f->length, key, KEY, text, f->text, 1);
    }
    expect("the file is made", answers == 0);
    free(text);
    return image;
}

/* One sample: microseconds for a check, of so many. */
static double spent(const struct calls *c, const uint8_t *image,
                    const struct file *f, uint32_t runs)
{
    uint32_t verdict = 77, slot = 77, wrong = 0;
    double from = now();

    for (uint32_t i = 0; i < runs; i++)
        wrong |= c->check(image, f->length, &verdict, &slot) | verdict;
    from = (now() - from) / 1e3 / runs;
    expect("sound", wrong == 0);
    return from;
}

static void compare(const struct file *f, int samples)
{
    uint8_t *image = make(f);
    uint32_t runs = 200000 / f->points;
    double ratio[MOST], tuned = 1e300, library = 1e300;

    runs = runs > 0 ? runs : 1;
    for (int i = 0; i < samples; i++) {
        double t = spent(&tuned_c, image, f, runs);
        double l = spent(&subject, image, f, runs);

        tuned = t < tuned ? t : tuned;
        library = l < library ? l : library;
        ratio[i] = l / t;
    }
    qsort(ratio, (size_t)samples, sizeof *ratio, rising);
    printf("N %u, %u points, %zu bytes: tuned %.1f, library %.1f, "
           "ratio %.2f (at most %.2f)\n", f->slots, f->points, f->length,
           tuned, library, ratio[samples / 2], f->most);
    expect("the ratio", ratio[samples / 2] <= f->most);
    free(image);
}

int main(int argc, char **argv)
{
    int samples = argc > 1 ? atoi(argv[1]) : SAMPLES;

    if (samples < 1 || samples > MOST)
        return 2;
    for (size_t i = 0; i < sizeof files / sizeof *files; i++)
        if (samples >= SAMPLES || files[i].length <= 16777216)
            compare(&files[i], samples);
    return expected();
}
