/* Runs a plan of phases on the subject linked in and prints, for each phase,
 *     phase load common exact calls nanoseconds..
 * The digests stand for all that the subject answered and holds: common for
 * every subject alike, exact for images only. Times are the process's
 * processor time for one call, one for each sample of so many calls.
 *
 * driver --file PATH --seed S --key K --slots N [--images DIRECTORY]
 *        [--turns 1] [--fewer F] [--once 1] PLAN..
 * A word of the plan is a phase below; fill:P, build:P go to P % load. With
 * --turns it works only when turns.c lets it, with --fewer it makes an F-th of
 * the calls, with --once it takes one sample and asks only for the answers,
 * not for what the subject then holds: count.sh has them counted. */
#define _POSIX_C_SOURCE 200809L
#include <inttypes.h>
#include <stdio.h>
#include <stdlib.h>
#include <time.h>
#include <unistd.h>

#include "model.h"
#include "turn.h"

enum { SAMPLES = 3 };
enum { LOOKUPS = 40000, REPLACES = 20000, RENEWALS = 4096, SWAPS = 2048 };
/* Adds in a sample of build, points in one of walk and check: at least. */
enum { ADDS = 16384 };
/* Slots read in a sample on a full table, about. */
enum { FULL = 800000 };
/* A message as built, and after all renewals and appends, with its header. */
enum { MESSAGE = 48, MESSAGE_GROWN = TEXT_MAX + 4 };

struct options {
    uint64_t seed;
    uint32_t key_size;
    uint32_t slots;
    const char *file;
    const char *images;
    int turns;
    uint32_t fewer;
    int once;
};

struct bench {
    struct model model;
    uint32_t load;
    uint64_t common;  /* digest of the answers */
    uint32_t calls;   /* in the last sample */
    int wrong;
    int turns;
    uint32_t fewer;
    int once;
};

static void take_turn(const struct bench *b)
{
    char token;

    if (b->turns && read(TURN_IN, &token, 1) != 1)
        exit(2);
}

static void end_turn(const struct bench *b)
{
    char token = 't';

    if (b->turns && write(TURN_OUT, &token, 1) != 1)
        exit(2);
}

static double now(void)
{
    struct timespec t;

    clock_gettime(CLOCK_PROCESS_CPUTIME_ID, &t);
    return (double)t.tv_sec * 1e9 + (double)t.tv_nsec;
}

static void expect(struct bench *b, int holds)
{
    b->wrong |= !holds;
}

static double start(struct bench *b, int writing)
{
    double from = now();

    if (store.begin)
        expect(b, store.begin(writing) == DONE);
    return from;
}

static double stop(struct bench *b, double from)
{
    if (store.end)
        expect(b, store.end() == DONE);
    return now() - from;
}

static struct text text_of(const struct point *p)
{
    struct text text = { p->text, p->length };

    return text;
}

/* One pass over the drawn calls with one of add, replace, append. */
static double write_all(struct bench *b,
                        int (*call)(const uint8_t *, struct text))
{
    const struct calls_drawn *c = &b->model.calls;
    uint32_t key_size = b->model.key_size;
    double from = start(b, 1);
    int answers = 0;

    for (uint32_t i = 0; i < c->count; i++)
        answers |= call(c->keys + (size_t)i * key_size,
                        text_of(&c->points[i]));
    expect(b, answers == DONE);
    return stop(b, from);
}

static double look_up_all(struct bench *b, int expected)
{
    const struct calls_drawn *c = &b->model.calls;
    uint32_t key_size = b->model.key_size;
    uint64_t digest = 0;
    int wrong = 0;
    double from = start(b, 0);

    for (uint32_t i = 0; i < c->count; i++) {
        struct text text;

        wrong |= store.lookup(c->keys + (size_t)i * key_size, &text) !=
                 expected;
        digest = mix(digest, text.length);
        if (text.length > 0)
            digest = mix(digest, text.bytes[0]);
    }
    from = stop(b, from);
    expect(b, !wrong);
    b->common = mix(b->common, digest);
    return from;
}

static double swap_all(struct bench *b)
{
    const struct calls_drawn *c = &b->model.calls;
    uint32_t key_size = b->model.key_size;
    double from = start(b, 1);
    int answers = 0;

    for (uint32_t i = 0; i < c->count; i++) {
        answers |= store.remove(c->keys + (size_t)i * key_size);
        answers |= store.add(c->others + (size_t)i * key_size,
                             text_of(&c->points[i]));
    }
    expect(b, answers == DONE);
    return stop(b, from);
}

/* ---- the phases: nanoseconds, and in calls how many calls or points ---- */

static uint32_t points_at(const struct bench *b, uint32_t load)
{
    return (uint32_t)((uint64_t)b->model.slots * load / 100);
}

static uint32_t passes(const struct bench *b, uint32_t points)
{
    uint32_t least = ADDS / b->fewer;

    return points >= least ? 1 : (least + points - 1) / points;
}

/* Fewer calls where one reads the whole table. */
static uint32_t scans(const struct bench *b, uint32_t usual)
{
    uint32_t count = FULL / b->fewer / b->model.slots;

    if (b->load < 100 || count > usual / b->fewer)
        return usual / b->fewer;
    return count > 0 ? count : 1;
}

static double phase_create(struct bench *b)
{
    double from = now();

    b->calls = 1;
    model_empty(&b->model);
    expect(b, store.reset() == DONE);
    return now() - from;
}

static double phase_build(struct bench *b)
{
    uint32_t points = points_at(b, b->load), runs = passes(b, points);
    double spent = 0;

    for (uint32_t run = 0; run < runs; run++) {
        model_empty(&b->model);
        expect(b, store.reset() == DONE);
        draw_adds(&b->model, points);
        spent += write_all(b, store.add);
    }
    b->calls = runs * points;
    return spent;
}

static double phase_fill(struct bench *b)
{
    b->calls = points_at(b, b->load) - b->model.count;
    draw_adds(&b->model, b->calls);
    return write_all(b, store.add);
}

static double phase_hit(struct bench *b)
{
    uint32_t count = LOOKUPS / b->fewer;

    draw_hits(&b->model, count);
    b->calls = count;
    return look_up_all(b, DONE);
}

static double phase_miss(struct bench *b)
{
    uint32_t count = scans(b, LOOKUPS);

    draw_misses(&b->model, count);
    b->calls = count;
    return look_up_all(b, ABSENT);
}

static double phase_replace(struct bench *b)
{
    uint32_t count = REPLACES / b->fewer;

    draw_replaces(&b->model, count);
    b->calls = count;
    return write_all(b, store.replace);
}

static double phase_renew(struct bench *b)
{
    uint32_t count = RENEWALS / b->fewer;

    draw_renewals(&b->model, count);
    b->calls = count;
    return write_all(b, store.replace);
}

static double phase_append(struct bench *b)
{
    uint32_t count = RENEWALS / b->fewer;

    draw_appends(&b->model, count);
    b->calls = count;
    return write_all(b, store.append);
}

static double phase_swap(struct bench *b)
{
    uint32_t count = scans(b, SWAPS);

    draw_swaps(&b->model, count);
    b->calls = count;
    return swap_all(b);
}

static double phase_walk(struct bench *b)
{
    uint32_t runs = passes(b, b->model.count);
    double from = start(b, 0);

    b->calls = runs * b->model.count;
    for (uint32_t run = 0; run < runs; run++) {
        struct seen seen = { NULL, b->model.key_size, 0, 0, 0 };

        expect(b, store.walk(&seen) == DONE && seen.points == b->model.count);
    }
    return stop(b, from);
}

static double phase_check(struct bench *b)
{
    uint32_t runs = passes(b, b->model.count);
    double from = now();

    b->calls = runs * b->model.count;
    for (uint32_t run = 0; run < runs; run++)
        expect(b, store.check() == DONE);
    return now() - from;
}

static const struct phase {
    const char *name;
    double (*run)(struct bench *b);
    int sampled;
} phases[] = {
    { "create", phase_create, 1 }, { "build", phase_build, 1 },
    { "fill", phase_fill, 0 },     { "hit", phase_hit, 1 },
    { "miss", phase_miss, 1 },     { "replace", phase_replace, 1 },
    { "renew", phase_renew, 1 },   { "append", phase_append, 1 },
    { "swap", phase_swap, 1 },     { "walk", phase_walk, 1 },
    { "check", phase_check, 1 },
};

/* ---- the plan ---- */

/* Writes the whole image to the directory under the phase's name. */
static int save_image(const char *directory, const char *phase, uint32_t load)
{
    char path[4096];
    size_t length, written;
    const uint8_t *image = store.image(&length);
    FILE *out;

    snprintf(path, sizeof path, "%s/%s-%u", directory, phase, (unsigned)load);
    out = fopen(path, "wb");
    if (!out)
        return 0;
    written = fwrite(image, 1, length, out);
    return fclose(out) == 0 && written == length;
}

static void print_line(const struct bench *b, const char *name,
                       uint64_t common, uint64_t exact, const double *spent)
{
    printf("%s %u %016" PRIx64 " %016" PRIx64 " %u", name, (unsigned)b->load,
           common, exact, (unsigned)b->calls);
    for (int i = 0; i < (b->once ? 1 : SAMPLES); i++)
        printf(" %.1f", spent[i]);
    printf("\n");
}

/* Asks whether the store holds what it must; prints and saves. Not inlined:
 * count.sh takes its entry for the end of a phase. */
static __attribute__((noinline)) int
conclude(struct bench *b, const struct phase *phase, const char *images,
         const double *spent)
{
    uint64_t exact = 0;

    if (b->wrong ||
        (!b->once && !model_holds(&b->model, &b->common, &exact))) {
        fprintf(stderr, "%s at %u %%: a wrong answer or content\n",
                phase->name, (unsigned)b->load);
        return 0;
    }
    if (!phase->sampled)
        return 1;
    print_line(b, phase->name, b->common, exact, spent);
    return !images || !store.image ||
           save_image(images, phase->name, b->load);
}

static int run_phase(struct bench *b, const struct phase *phase,
                     const char *images)
{
    double spent[SAMPLES];
    int good;

    b->common = 0;
    for (int i = 0; i < (phase->sampled && !b->once ? SAMPLES : 1); i++) {
        take_turn(b);
        spent[i] = phase->run(b) / b->calls;
        end_turn(b);
    }
    take_turn(b);
    good = conclude(b, phase, images, spent);
    end_turn(b);
    return good;
}

static int run_word(struct bench *b, const char *word, const char *images)
{
    const char *colon = strchr(word, ':');
    size_t length = colon ? (size_t)(colon - word) : strlen(word);

    if (colon)
        b->load = (uint32_t)strtoul(colon + 1, NULL, 10);
    for (size_t i = 0; i < sizeof phases / sizeof *phases; i++)
        if (strlen(phases[i].name) == length &&
            memcmp(phases[i].name, word, length) == 0)
            return run_phase(b, &phases[i], images);
    fprintf(stderr, "no such phase: %s\n", word);
    return 0;
}

static size_t message_room(uint32_t slots)
{
    return (size_t)slots * MESSAGE +
           (size_t)SAMPLES * (2 * RENEWALS * MESSAGE_GROWN +
                              3 * SWAPS * MESSAGE);
}

static int read_options(struct options *o, char **argv)
{
    int at = 1;

    for (; argv[at] && argv[at][0] == '-' && argv[at + 1]; at += 2) {
        const char *name = argv[at], *value = argv[at + 1];

        if (strcmp(name, "--seed") == 0)
            o->seed = strtoull(value, NULL, 10);
        else if (strcmp(name, "--key") == 0)
            o->key_size = (uint32_t)strtoul(value, NULL, 10);
        else if (strcmp(name, "--slots") == 0)
            o->slots = (uint32_t)strtoul(value, NULL, 10);
        else if (strcmp(name, "--file") == 0)
            o->file = value;
        else if (strcmp(name, "--images") == 0)
            o->images = value;
        else if (strcmp(name, "--turns") == 0)
            o->turns = 1;
        else if (strcmp(name, "--fewer") == 0)
            o->fewer = (uint32_t)strtoul(value, NULL, 10);
        else if (strcmp(name, "--once") == 0)
            o->once = 1;
        else
            return 0;
    }
    if (!o->file || o->key_size < 4 || o->key_size > KEY_MAX || !o->slots)
        return 0;
    return o->fewer >= 1 && o->fewer <= 100 ? at : 0;
}

static int prepare(struct bench *b, const struct options *o)
{
    size_t room = message_room(o->slots);

    model_begin(&b->model, o->seed, o->key_size, o->slots,
                3 * SAMPLES * SWAPS);
    if (store.open(o->file, o->key_size, o->slots, room) == DONE &&
        store.reset() == DONE)
        return 1;
    fprintf(stderr, "cannot open the file\n");
    return 0;
}

int main(int argc, char **argv)
{
    struct options o = { 1, 0, 0, NULL, NULL, 0, 1, 0 };
    struct bench b = { .load = 0 };
    int at = read_options(&o, argv), good;

    (void)argc;
    if (at == 0) {
        fprintf(stderr, "bad options\n");
        return 2;
    }
    b.turns = o.turns;
    b.fewer = o.fewer;
    b.once = o.once;
    take_turn(&b);
    good = prepare(&b, &o);
    end_turn(&b);
    for (; good && argv[at]; at++)
        good = run_word(&b, argv[at], o.images);
    if (good)
        store.close();
    model_end(&b.model);
    return good ? 0 : 1;
}
