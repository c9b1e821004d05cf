/* Add and delete in their listed form beside the plain one, in images of 16 MiB
 * and of 1 GiB with the same table and points: the cost does not grow with the
 * image. Both forms make the same calls, in turns, each on an image of its own;
 * which is first changes from sample to sample. At the end both images are
 * compared from the start up to X.
 *
 * listed [SAMPLES]      7 if not given
 * Prints Markdown lines: an operation, an image's length, the listed form over
 * the plain one (median over the samples), and the listed form's nanoseconds.
 * Ends with "N passed, M failed". */
#define _DEFAULT_SOURCE
#include "../host/include/bhtf.h"
#include "samples.h"

#include <stdio.h>
#include <stdlib.h>
#include <string.h>
#include <sys/mman.h>

enum { KEY = 16, SLOTS = 65521, POINTS = 32760, TEXT = 40 };
enum { SAMPLES = 7, MOST = 15, CALLS = 4000, LIST = 4096 };
enum { PLAIN, LISTED, FORMS };

static const size_t lengths[] = { 16u << 20, 1u << 30 };

/* An image, and what the listed form is lent. */
struct site {
    uint8_t *image;
    uint8_t *work;
    size_t length;
    uint8_t list[LIST];
    uint32_t pairs;
};

static void *room_for(size_t size)
{
    void *room = mmap(NULL, size, PROT_READ | PROT_WRITE,
                      MAP_PRIVATE | MAP_ANONYMOUS | MAP_NORESERVE, -1, 0);

    if (room == MAP_FAILED) {
        perror("listed");
        exit(2);
    }
    return room;
}

static void name_of(uint8_t key[KEY], unsigned i)
{
    memset(key, 0, KEY);
    snprintf((char *)key, KEY, "CP-%u", i * 2654435761u % 1000000007u);
}

static uint32_t add(struct site *s, int form, const uint8_t *key,
                    const uint8_t *text, size_t size, uint32_t mode)
{
    if (form == PLAIN)
        return bhtf_add(s->image, s->length, key, KEY, text, size, mode);
    return bhtf_add_listed(s->image, s->length, key, KEY, text, size, mode,
                           s->work, s->length, s->list, LIST, &s->pairs);
}

static uint32_t take_out(struct site *s, int form, const uint8_t *key)
{
    if (form == PLAIN)
        return bhtf_delete(s->image, s->length, key, KEY);
    return bhtf_delete_listed(s->image, s->length, key, KEY, s->work, s->length,
                              s->list, LIST, &s->pairs);
}

/* ---- operations: so many calls from call `first` on, and how many were refused */

static unsigned replace(struct site *s, int form, unsigned first)
{
    uint8_t key[KEY], text[TEXT];
    unsigned refused = 0;

    for (unsigned i = first; i < first + CALLS; i++) {
        name_of(key, i % POINTS);
        memset(text, (int)(i & 127), TEXT);
        refused += add(s, form, key, text, TEXT, BHTF_REPLACE) != 0;
    }
    return refused;
}

static unsigned renew(struct site *s, int form, unsigned first)
{
    uint8_t key[KEY], text[TEXT];
    unsigned refused = 0;

    memset(text, 'r', TEXT);
    for (unsigned i = first; i < first + CALLS; i++) {
        name_of(key, i % POINTS);
        refused += take_out(s, form, key) != 0;
        refused += add(s, form, key, text, TEXT, BHTF_NEW) != 0;
    }
    return refused;
}

static const struct operation {
    const char *name;
    unsigned (*run)(struct site *s, int form, unsigned first);
    unsigned calls;
} operations[] = {
    { "replace in place", replace, CALLS },
    { "delete and add in turn", renew, 2 * CALLS },
};

static void open_site(struct site *s, size_t length)
{
    uint8_t key[KEY], text[TEXT];
    unsigned refused = 0;

    s->length = length;
    s->image = room_for(length);
    s->work = room_for(length);
    refused += bhtf_create(s->image, length, KEY, SLOTS, 7) != 0;
    memset(text, 'n', TEXT);
    for (unsigned i = 0; i < POINTS; i++) {
        name_of(key, i);
        refused += bhtf_add(s->image, length, key, KEY, text, TEXT,
                            BHTF_NEW) != 0;
    }
    expect("a file is made", refused == 0);
}

static void close_site(struct site *s)
{
    munmap(s->image, s->length);
    munmap(s->work, s->length);
}

static uint32_t free_of(const uint8_t *image)
{
    const uint8_t *x = image + 52;

    return (uint32_t)x[0] << 24 | (uint32_t)x[1] << 16 | (uint32_t)x[2] << 8 |
           x[3];
}

static void measure(const struct operation *o, struct site sites[FORMS],
                    int samples)
{
    double ratios[MOST], listed[MOST];
    unsigned refused = 0;

    for (int k = 0; k < samples; k++) {
        double took[FORMS];

        for (int n = 0; n < FORMS; n++) {
            int form = (n + k) % FORMS;
            double from = now();

            refused += o->run(&sites[form], form, (unsigned)k * CALLS);
            took[form] = now() - from;
        }
        ratios[k] = took[LISTED] / took[PLAIN];
        listed[k] = took[LISTED] / o->calls;
    }
    expect("no call is refused, and lists have pairs",
           refused == 0 && sites[LISTED].pairs > 0);
    printf("| %s | %zu MiB | %.2f | %.0f |\n", o->name,
           sites[PLAIN].length >> 20, median(ratios, samples),
           median(listed, samples));
    fflush(stdout);
}

static void at_length(size_t length, int samples)
{
    struct site sites[FORMS];
    uint32_t end;

    for (int form = 0; form < FORMS; form++)
        open_site(&sites[form], length);
    for (size_t i = 0; i < sizeof operations / sizeof operations[0]; i++)
        measure(&operations[i], sites, samples);
    end = free_of(sites[PLAIN].image);
    expect("both forms leave the same image",
           end == free_of(sites[LISTED].image) && end <= length &&
               memcmp(sites[PLAIN].image, sites[LISTED].image, end) == 0);
    for (int form = 0; form < FORMS; form++)
        close_site(&sites[form]);
}

int main(int argc, char **argv)
{
    int samples = argc > 1 ? atoi(argv[1]) : SAMPLES;

    if (samples < 1 || samples > MOST) {
        fprintf(stderr, "usage: listed [SAMPLES], up to %d\n", MOST);
        return 2;
    }
    for (size_t i = 0; i < sizeof lengths / sizeof lengths[0]; i++)
        at_length(lengths[i], samples);
    return expected();
}
