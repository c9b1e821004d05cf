/* How many more epochs a file of epochs has room for. */
#include "epochs_left.h"

#include "bhtf.h"
#include "commands.h"
#include "epoch.h"

#include <stdlib.h>

/* Epochs of which the rate is taken. */
enum { LAST_EPOCHS = 4 };

/* A text's first byte is not below a blank. */
#define EPOCH_LIKELY (UINT32_C(32) << 24)

/* Above it searches become long. */
static const double load_well = 0.8;

struct rate {
    uint32_t epochs;   /* in all */
    uint32_t first;
    uint32_t last;
    uint32_t counted;  /* of the last ones, as many as there are */
    uint32_t points;   /* in these */
    uint32_t begin;    /* the first of these */
};

static int by_number(const void *a, const void *b)
{
    uint32_t x = *(const uint32_t *)a, y = *(const uint32_t *)b;

    return (x > y) - (x < y);
}

/* The epochs of all points: how many, or 0 if the file is none of epochs. */
static size_t take_epochs(uint32_t *all, const struct buffer *copy,
                          const struct header *h)
{
    uint32_t slot, place, any = 0;
    size_t count = 0;

    bhtf_walk(copy->bytes, copy->length, 0, &slot, &place);
    while (place != 0) {
        uint32_t epoch = epoch_of(copy->bytes + place, h->key_size);

        if (epoch >= EPOCH_LIKELY)
            return 0;
        any |= epoch;
        all[count++] = epoch;
        bhtf_walk(copy->bytes, copy->length, slot + 1, &slot, &place);
    }
    return any == 0 ? 0 : count;
}

/* From sorted epochs, the last first. */
static struct rate rate_of(const uint32_t *all, size_t count)
{
    struct rate r = { 0, all[0], all[count - 1], 0, 0, 0 };

    for (size_t i = count; i-- > 0;) {
        r.epochs += i == count - 1 || all[i] != all[i + 1];
        if (r.epochs > LAST_EPOCHS)
            continue;
        r.counted = r.epochs;
        r.points++;
        r.begin = all[i];
    }
    return r;
}

static unsigned long whole(double epochs)
{
    return epochs > 0 ? (unsigned long)epochs : 0;
}

static void print_left(const struct rate *r, const struct buffer *copy,
                       const struct header *h, const struct space *space,
                       size_t points)
{
    double each = (double)r->points / r->counted;
    double bytes = space->texts == 0
        ? 0 : (double)space->active / space->texts * each;
    unsigned long full = whole(((double)h->slots - (double)points) / each);
    unsigned long well = whole((load_well * h->slots - (double)points) / each);
    unsigned long texts = bytes == 0
        ? full : whole((double)(copy->length - h->next) / bytes);
    unsigned long left = full < texts ? full : texts;
    double apart = r->counted < 2
        ? 1 : ((double)r->last - r->begin) / (r->counted - 1);

    printf("epochs: %lu, from %lu to %lu; the last %lu have %.1f points and "
           "%.0f bytes of texts each\n", (unsigned long)r->epochs,
           (unsigned long)r->first, (unsigned long)r->last,
           (unsigned long)r->counted, each, bytes);
    printf("epochs left at that rate: %lu, to about epoch %.0f (%lu to a load "
           "of 80 %%, %lu until the table is full, %lu until there is no room "
           "for texts)\n", left, r->last + (double)left * apart, well, full,
           texts);
}

int epochs_left_print(const struct buffer *copy, const struct header *h,
                      const struct space *space)
{
    uint32_t *all;
    size_t count;

    if (h->key_size <= EPOCH_SIZE)
        return DONE;
    all = calloc(h->slots, sizeof *all);
    if (all == NULL)
        return out_of_memory();
    count = take_epochs(all, copy, h);
    if (count > 0) {
        struct rate r;

        qsort(all, count, sizeof *all, by_number);
        r = rate_of(all, count);
        print_left(&r, copy, h, space, count);
    }
    free(all);
    return DONE;
}
