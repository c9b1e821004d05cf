/* Storing and reading by column: plain C, tuned C and the library, in one
 * process and in turns, each on an image of its own, beside memcpy of the record
 * bytes and beside the library's own call on the bytes as they are: mode 2 of
 * what is stored, lookup and memcpy of what is read. Which is first changes from
 * sample to sample. Answers, records and images are compared.
 *
 * columns [SAMPLES [RECORDS]]    7 samples if not given, of up to so many
 *                                records, 1,000,000 if not given
 * columns once WHICH WIDTH RECORDS     one storing and one reading by plain,
 *                                tuned or library, for counting instructions
 * Prints Markdown lines: the library over the faster C, over plain and over
 * tuned C, over memcpy and over its call on the bytes as they are, tuned C again
 * over tuned C, and the library's nanoseconds a call. A ratio is the median over
 * the samples. Ends with "N passed, M failed". */
#define _POSIX_C_SOURCE 200809L
#include "../tests/calls.h"
#include "samples.h"

#include <stdio.h>
#include <stdlib.h>
#include <string.h>

extern const struct calls plain_c;
extern const struct calls tuned_c;

enum { KEY = 16, SLOTS = 16, DATA = 4096, SAMPLES = 7, MOST = 15 };
enum { LONGEST = 16777215, REPLACE = 2, AT_A_TIME = 1 << 20, TURNS = 10000 };
enum { PLAIN, TUNED, LIBRARY, AGAIN, AS_IT_IS, COPY, SUBJECTS };

static const struct calls *const calls[SUBJECTS] = {
    &plain_c, &tuned_c, &subject, &tuned_c, &subject, &subject
};
static const char *const which[] = { "plain", "tuned", "library" };
static const uint32_t widths[] = { 1, 4, 12, 16, 64 };
static const uint32_t counts[] = { 10, 100, 1000, 10000, 100000, 1000000 };
static const uint8_t key[KEY] = "raw readings 17";

/* So many records, and what they become. */
struct readings {
    uint32_t width;
    uint32_t count;
    size_t size;
    uint8_t *records;
    uint8_t *stored;
    uint8_t *out;
    uint8_t *images[SUBJECTS];
    size_t length;
};

static void *room_for(size_t size)
{
    void *room = malloc(size);

    if (room == NULL)
        exit(2);
    return room;
}

static void make_readings(struct readings *r, uint32_t width, uint32_t count)
{
    r->width = width;
    r->count = count;
    r->size = (size_t)width * count;
    r->length = (DATA + 5 + r->size + 4095) / 4096 * 4096;
    r->records = room_for(r->size);
    r->stored = room_for(1 + r->size);
    r->out = room_for(r->size);
    for (size_t i = 0; i < r->size; i++)
        r->records[i] = (uint8_t)(i * 2654435761u >> 24);
    r->stored[0] = (uint8_t)width;
    for (size_t i = 0; i < r->size; i++)
        r->stored[1 + i % width * count + i / width] = r->records[i];
    for (int s = 0; s < SUBJECTS; s++) {
        r->images[s] = room_for(r->length);
        expect("create", calls[s]->create(r->images[s], r->length, KEY, SLOTS,
                                          1) == 0);
    }
}

static void drop_readings(struct readings *r)
{
    for (int s = 0; s < SUBJECTS; s++)
        free(r->images[s]);
    free(r->records);
    free(r->stored);
    free(r->out);
}

/* ---- one call ---- */

static uint32_t store(struct readings *r, int s)
{
    if (s == COPY) {
        memcpy(r->images[s] + DATA + 5, r->records, r->size);
        return 0;
    }
    if (s == AS_IT_IS)
        return calls[s]->add(r->images[s], r->length, key, KEY, r->stored,
                             1 + r->size, REPLACE);
    return calls[s]->store_columns(r->images[s], r->length, key, KEY,
                                   r->records, r->size, r->width);
}

static uint32_t read_back(struct readings *r, int s)
{
    uint32_t offset = DATA + 4, length = 1 + (uint32_t)r->size, bytes, answer;

    if (s != COPY && s != AS_IT_IS) {
        answer = calls[s]->read_columns(r->images[s], r->length, key, KEY,
                                        r->out, r->size, &bytes);
        return answer | (bytes != r->size);
    }
    answer = s == COPY ? 0
                       : calls[s]->lookup(r->images[s], r->length, key, KEY,
                                          &offset, &length);
    memcpy(r->out, r->images[s] + offset + 1, length - 1);
    return answer | (length != 1 + r->size);
}

static const struct operation {
    const char *name;
    uint32_t (*run)(struct readings *r, int s);
} operations[] = { { "store", store }, { "read", read_back } };

/* ---- samples ---- */

static double spent[SUBJECTS][MOST];

static void sample(const struct operation *o, struct readings *r, int round)
{
    size_t turns = 1 + AT_A_TIME / (1 + r->size);

    if (turns > TURNS)
        turns = TURNS;
    for (int i = 0; i < SUBJECTS; i++) {
        int s = (i + round) % SUBJECTS;
        uint32_t answers = o->run(r, s);
        double from = now();

        for (size_t k = 0; k < turns; k++)
            answers |= o->run(r, s);
        spent[s][round] = (now() - from) / (double)turns;
        expect(o->name, answers == 0);
        if (o->run == read_back && s < AS_IT_IS)
            expect("the records",
                   memcmp(r->out, r->records, r->size) == 0);
    }
}

static double ratio(int of, int base, int samples)
{
    double ratios[MOST];

    for (int i = 0; i < samples; i++)
        ratios[i] = spent[of][i] / spent[base][i];
    return median(ratios, samples);
}

static void compare(const struct operation *o, struct readings *r, int samples)
{
    int faster;

    for (int i = 0; i < samples; i++)
        sample(o, r, i);
    faster = median(spent[PLAIN], samples) < median(spent[TUNED], samples)
                 ? PLAIN : TUNED;
    printf("| %s | %u | %u | %.2f | %.2f | %.2f | %.2f | %.2f | %.2f | %.0f |\n",
           o->name, r->width, r->count, ratio(LIBRARY, faster, samples),
           ratio(LIBRARY, PLAIN, samples), ratio(LIBRARY, TUNED, samples),
           ratio(LIBRARY, COPY, samples), ratio(LIBRARY, AS_IT_IS, samples),
           ratio(AGAIN, TUNED, samples), median(spent[LIBRARY], samples));
    fflush(stdout);
}

static void measure(uint32_t width, uint32_t count, int samples)
{
    struct readings r;

    make_readings(&r, width, count);
    compare(&operations[0], &r, samples);
    for (int s = 1; s < COPY; s++)
        expect("the images",
               memcmp(r.images[0], r.images[s], r.length) == 0);
    memcpy(r.images[COPY], r.images[0], r.length);
    compare(&operations[1], &r, samples);
    drop_readings(&r);
}

/* One call of each, by one of them. */
static int once(const char *name, uint32_t width, uint32_t count)
{
    struct readings r;
    int s = 0;

    while (s < AGAIN && strcmp(which[s], name) != 0)
        s++;
    if (s == AGAIN || width < 1 || width > 64)
        return 2;
    make_readings(&r, width, count);
    expect("store", store(&r, s) == 0);
    expect("read", read_back(&r, s) == 0);
    drop_readings(&r);
    return expected();
}

int main(int argc, char **argv)
{
    int samples = argc > 1 ? atoi(argv[1]) : SAMPLES;
    unsigned long most = argc > 2 ? strtoul(argv[2], NULL, 10) : 1000000;

    if (argc == 5 && strcmp(argv[1], "once") == 0)
        return once(argv[2], (uint32_t)atoi(argv[3]), (uint32_t)atoi(argv[4]));
    if (samples < 1 || samples > MOST)
        return 2;
    for (size_t w = 0; w < sizeof widths / sizeof *widths; w++)
        for (size_t i = 0; i < sizeof counts / sizeof *counts; i++)
            if (counts[i] <= most && widths[w] * (size_t)counts[i] < LONGEST)
                measure(widths[w], counts[i], samples);
    return expected();
}
