/* stat: how full a file is, how long its searches are, what is dead in it. */
#include "commands.h"

#include "bhtf.h"
#include "epochs_left.h"
#include "long_work.h"
#include "space_used.h"

#include <string.h>

/* Rows of the histogram: 1, 2, 3-4, 5-8 and so on, for any number of slots. */
enum { ROWS = 32, BAR = 40 };

struct figures {
    uint32_t points;          /* taken slots */
    uint32_t rows[ROWS];      /* points by the slots that a search reads */
    uint32_t longest;
    uint64_t total;           /* slots read to find each point once */
    uint64_t displaced;       /* slots between points and their homes */
    uint32_t missed_longest;  /* slots read where a name is not there */
    uint64_t missed_total;    /* the same, once from each home */
    struct space space;
    uint32_t verdict;         /* of the library's check */
};

static int row_of(uint32_t probes)
{
    int row = 0;

    while (row < ROWS - 1 && (UINT32_C(1) << row) < probes)
        row++;
    return row;
}

/* The slots that a lookup of this slot's name reads. */
static void note_search(struct figures *f, const struct buffer *copy,
                        const struct header *h, uint32_t slot)
{
    const uint8_t *key = copy->bytes + slot_offset(h, slot);
    uint32_t home = home_slot(copy->bytes, h, key);
    uint32_t offset, length, read;

    bhtf_lookup_slots(copy->bytes, copy->length, key, h->key_size, &offset,
                      &length, &read);
    f->rows[row_of(read)]++;
    f->total += read;
    f->displaced += slot >= home ? slot - home : slot + h->slots - home;
    if (read > f->longest)
        f->longest = read;
}

/* A run of taken slots and the empty one after it: from each of them a search
 * for a name that is not there goes on to the empty one. */
static void note_run(struct figures *f, uint32_t run)
{
    f->missed_total += ((uint64_t)run + 1) * ((uint64_t)run + 2) / 2;
    if (run + 1 > f->missed_longest)
        f->missed_longest = run + 1;
}

/* Run by run; the last one goes on at the table's start. */
static void note_misses(struct figures *f, const struct buffer *copy,
                        const struct header *h)
{
    uint32_t run = 0, front = 0, empty = 0;
    uint32_t taken, place;

    bhtf_walk(copy->bytes, copy->length, 0, &taken, &place);
    for (uint32_t slot = 0; slot < h->slots; slot++) {
        if (place != 0 && taken == slot) {
            run++;
            bhtf_walk(copy->bytes, copy->length, slot + 1, &taken, &place);
            continue;
        }
        if (empty++ == 0)
            front = run;
        else
            note_run(f, run);
        run = 0;
    }
    if (empty > 0) {
        note_run(f, run + front);
    } else {
        f->missed_total = (uint64_t)h->slots * h->slots;
        f->missed_longest = h->slots;
    }
}

static void gather(struct figures *f, const struct buffer *copy,
                   const struct header *h)
{
    uint32_t slot, place;

    memset(f, 0, sizeof *f);
    bhtf_check(copy->bytes, copy->length, &f->verdict, &slot);
    bhtf_walk(copy->bytes, copy->length, 0, &slot, &place);
    while (place != 0) {
        f->points++;
        note_search(f, copy, h, slot);
        bhtf_walk(copy->bytes, copy->length, slot + 1, &slot, &place);
    }
    note_misses(f, copy, h);
    f->space = space_measure(copy, h);
}

static void print_row(const struct figures *f, int row, uint32_t most)
{
    unsigned long last = 1UL << row;
    unsigned long first = row < 2 ? last : last / 2 + 1;
    uint64_t points = f->rows[row];
    int bar = most == 0 ? 0 : (int)((points * BAR + most - 1) / most);
    char range[32];

    if (first == last)
        snprintf(range, sizeof range, "%lu", first);
    else
        snprintf(range, sizeof range, "%lu-%lu", first, last);
    printf("  %11s %6lu ", range, (unsigned long)points);
    while (bar-- > 0)
        putchar('#');
    putchar('\n');
}

/* From it follows what a delete costs: see bhtf_delete. */
static void print_displacements(const struct figures *f, uint32_t slots)
{
    printf("displacements: %llu slots together\n",
           (unsigned long long)f->displaced);
    if (f->points == slots)
        printf("the table is full: a delete looks at up to %llu slots\n",
               (unsigned long long)(slots + f->displaced));
}

static void print_misses(const struct figures *f, uint32_t slots)
{
    printf("slots read where a name is not there: %.2f on average, %lu at "
           "most\n", (double)f->missed_total / slots,
           (unsigned long)f->missed_longest);
}

static void print_searches(const struct figures *f)
{
    uint32_t most = 0;
    int last = row_of(f->longest);

    if (f->points == 0)
        return;
    for (int row = 0; row < ROWS; row++)
        most = f->rows[row] > most ? f->rows[row] : most;
    printf("slots read to find a point: %.2f on average, %lu at most\n",
           (double)f->total / f->points, (unsigned long)f->longest);
    printf("  %11s %6s\n", "slots read", "points");
    for (int row = 0; row <= last; row++)
        print_row(f, row, most);
}

/* What is dead is known if every message is whole and shares no bytes. */
static void print_space(const struct figures *f, const struct header *h,
                        size_t length)
{
    uint64_t used = h->next - h->data;

    printf("data: %lu bytes, %lu used, %lu free\n",
           (unsigned long)(length - h->data), (unsigned long)used,
           (unsigned long)(length - h->next));
    if (f->verdict == BHTF_SLOT_FAILS) {
        printf("dead: unknown, since the file is not sound\n");
        return;
    }
    printf("dead: %lu bytes, of which %lu are kept by points without a text\n",
           (unsigned long)f->space.dead, (unsigned long)f->space.withdrawn);
    if (f->verdict == BHTF_SOUND && f->space.dead > 0)
        printf("bhtf compact would free %lu bytes\n",
               (unsigned long)f->space.dead);
}

static int print_figures(const struct buffer *copy, const char *file)
{
    const struct header h = header_read(copy->bytes);
    struct figures f;

    say_duration(file, "stat", 2 * slots_displaced(copy->bytes, copy->length,
                                                   &h), 0);
    gather(&f, copy, &h);
    printf("file: %lu bytes, key size %lu, version %u.%u.%u\n",
           (unsigned long)copy->length, (unsigned long)h.key_size,
           h.version[0], h.version[1], h.version[2]);
    printf("load: %lu points in %lu slots, %.1f %%\n",
           (unsigned long)f.points, (unsigned long)h.slots,
           100.0 * f.points / h.slots);
    printf("texts: %lu, of which %lu %s empty; %lu %s none\n",
           (unsigned long)f.space.texts, (unsigned long)f.space.empty,
           f.space.empty == 1 ? "is" : "are", (unsigned long)f.space.bare,
           f.space.bare == 1 ? "point has" : "points have");
    print_space(&f, &h, copy->length);
    print_searches(&f);
    print_misses(&f, h.slots);
    print_displacements(&f, h.slots);
    if (epochs_left_print(copy, &h, &f.space) != DONE)
        return TROUBLE;
    if (f.points != h.count)
        printf("damaged: the header counts %lu points\n",
               (unsigned long)h.count);
    if (f.space.bad > 0)
        printf("damaged: the messages of %lu points\n",
               (unsigned long)f.space.bad);
    if (f.verdict == BHTF_SOUND)
        return finish_output(DONE);
    printf("unsound: bhtf check says where\n");
    return finish_output(REFUSED);
}

int run_stat(const struct options *o)
{
    struct buffer copy = { NULL, 0, 0 };
    uint32_t key_size;
    int status = copy_accepted(&copy, o, &key_size);

    if (status == DONE)
        status = print_figures(&copy, o->word[0]);
    buffer_free(&copy);
    return status;
}
