/* How many slots a lookup reads, by load: of each stored name (hit) and of as
 * many that are absent (miss), or fewer at high loads, on several tables
 * filled by the library's own calls. Prints for each load and both
 *     N load hit|miss lookups mean p99 largest
 * where p99 is what 99 in 100 lookups do not exceed. Ends with status 1 if a
 * call answers what it should not, or reads more than N slots or C + 1.
 *
 * slots SEED K N TABLES */
#include "../host/include/bhtf.h"
#include "inputs.h"

#include <stdio.h>
#include <stdlib.h>
#include <string.h>

enum { HIT = 0, MISS = 1 };

static const uint32_t loads[] = { 10, 20, 30, 40, 50, 60, 70, 80, 90, 95, 99,
                                  100 };
enum { STEPS = sizeof loads / sizeof loads[0] };

/* Misses where each reads many slots, and on a full table, where each reads
 * all of it. */
enum { HIGH = 95, HIGH_MISSES = 2000, FULL_MISSES = 50 };

struct counted {
    uint64_t *by_slots;   /* lookups that read so many slots, from 0 to N */
    uint64_t lookups;
    uint64_t slots;
};

struct table {
    uint8_t *image;
    size_t length;
    uint32_t key_size;
    uint32_t slots;
    uint32_t points;
    uint8_t *names;       /* twice as many as slots; the second half absent */
};

static int wrong;

static void expect(int holds)
{
    wrong |= !holds;
}

static const uint8_t *name_of(const struct table *t, uint32_t i)
{
    return t->names + (size_t)i * t->key_size;
}

static void fill(struct table *t, uint32_t points)
{
    for (; t->points < points; t->points++)
        expect(bhtf_add(t->image, t->length, name_of(t, t->points),
                        t->key_size, NULL, 0, BHTF_APPEND) == BHTF_ACCEPTED);
}

static void look_up(const struct table *t, uint32_t i, uint32_t answer,
                    struct counted *c)
{
    uint32_t offset, length, read;

    expect(bhtf_lookup_slots(t->image, t->length, name_of(t, i), t->key_size,
                             &offset, &length, &read) == answer);
    expect(read >= 1 && read <= t->slots && read <= t->points + 1);
    if (read > t->slots)
        read = t->slots;
    c->by_slots[read]++;
    c->lookups++;
    c->slots += read;
}

static uint32_t misses_at(const struct table *t, uint32_t load)
{
    if (load == 100)
        return FULL_MISSES;
    return load < HIGH || t->points < HIGH_MISSES ? t->points : HIGH_MISSES;
}

static void look_all_up(const struct table *t, uint32_t load,
                        struct counted c[2])
{
    uint32_t misses = misses_at(t, load);

    for (uint32_t i = 0; i < t->points; i++)
        look_up(t, i, BHTF_ACCEPTED, &c[HIT]);
    for (uint32_t i = 0; i < misses; i++)
        look_up(t, t->slots + i, BHTF_ABSENT, &c[MISS]);
}

/* An empty file without room for messages, which no search looks at. */
static void begin(struct table *t, struct random *r)
{
    size_t end = 2048 + (size_t)t->slots * (t->key_size + 4);

    t->points = 0;
    t->length = (end + BHTF_PAGE - 1) / BHTF_PAGE * BHTF_PAGE;
    t->image = malloc(t->length);
    t->names = draw_names(r, t->key_size, 2 * t->slots);
    if (t->image == NULL)
        abort();
    expect(bhtf_create(t->image, t->length, t->key_size, t->slots,
                       (uint32_t)draw(r)) == BHTF_ACCEPTED);
}

static void run_table(struct table *t, struct random *r,
                      struct counted c[STEPS][2])
{
    begin(t, r);
    for (uint32_t i = 0; i < STEPS; i++) {
        fill(t, (uint32_t)((uint64_t)t->slots * loads[i] / 100));
        look_all_up(t, loads[i], c[i]);
    }
    free(t->image);
    free(t->names);
}

static void print_line(const struct counted *c, uint32_t slots, uint32_t load,
                       const char *what)
{
    uint64_t seen = 0;
    uint32_t most = 0, p99 = 0;

    for (uint32_t i = 0; i <= slots; i++) {
        if (c->by_slots[i] == 0)
            continue;
        if (100 * seen < 99 * c->lookups)
            p99 = i;
        seen += c->by_slots[i];
        most = i;
    }
    printf("%lu %lu %s %llu %.4f %lu %lu\n", (unsigned long)slots,
           (unsigned long)load, what, (unsigned long long)c->lookups,
           (double)c->slots / (double)c->lookups, (unsigned long)p99,
           (unsigned long)most);
}

int main(int argc, char **argv)
{
    static struct counted c[STEPS][2];
    struct random r;
    struct table t;

    if (argc != 5)
        return 2;
    memset(&t, 0, sizeof t);
    r.state = strtoull(argv[1], NULL, 10);
    t.key_size = (uint32_t)atoi(argv[2]);
    t.slots = (uint32_t)atoi(argv[3]);
    for (int i = 0; i < 2 * STEPS; i++) {
        c[i / 2][i % 2].by_slots = calloc((size_t)t.slots + 1,
                                          sizeof(uint64_t));
        if (c[i / 2][i % 2].by_slots == NULL)
            abort();
    }
    for (int i = atoi(argv[4]); i > 0; i--)
        run_table(&t, &r, c);
    for (int i = 0; i < STEPS; i++) {
        print_line(&c[i][HIT], t.slots, loads[i], "hit");
        print_line(&c[i][MISS], t.slots, loads[i], "miss");
    }
    return wrong;
}
