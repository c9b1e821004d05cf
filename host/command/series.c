/* The readings of a file of epochs: of each prism, in the order of epochs. */
#include "series.h"

#include "bhtf.h"
#include "commands.h"
#include "epoch.h"
#include "selection.h"

#include <stdlib.h>
#include <string.h>

uint32_t reading_epoch(const struct series *s, const struct spot *reading)
{
    return epoch_of(reading->name, s->site.key_size);
}

/* ---- one prism ---- */

/* How many of its readings are before that epoch. */
static size_t count_before(const struct series *s, const struct prism *p,
                           uint32_t epoch)
{
    size_t least = 0, most = p->count;

    while (least < most) {
        size_t middle = least + (most - least) / 2;

        if (reading_epoch(s, &p->readings[middle]) < epoch)
            least = middle + 1;
        else
            most = middle;
    }
    return least;
}

const struct spot *reading_at(const struct series *s, const struct prism *p,
                              uint32_t epoch)
{
    size_t i = count_before(s, p, epoch);

    return i < p->count && reading_epoch(s, &p->readings[i]) == epoch
        ? &p->readings[i] : NULL;
}

const struct spot *reading_before(const struct series *s,
                                  const struct prism *p, uint32_t epoch)
{
    size_t i = count_before(s, p, epoch);

    return i > 0 ? &p->readings[i - 1] : NULL;
}

/* ---- all of them ---- */

/* Epochs are most significant byte first, after a name with its padding: a
 * key's own order is that of names, and then of epochs. */
static size_t key_length;

static int by_key(const void *a, const void *b)
{
    const struct spot *x = a, *y = b;

    return memcmp(x->name, y->name, key_length);
}

static int by_number(const void *a, const void *b)
{
    uint32_t x = *(const uint32_t *)a, y = *(const uint32_t *)b;

    return (x > y) - (x < y);
}

static void name_readings(struct site *site)
{
    for (size_t i = 0; i < site->count; i++) {
        struct spot *s = &site->spots[i];

        s->name_length = site->key_size - EPOCH_SIZE;
        while (s->name_length > 0 && s->name[s->name_length - 1] == 0)
            s->name_length--;
    }
}

static void find_prisms(struct series *s)
{
    const struct spot *all = s->site.spots;

    for (size_t i = 0; i < s->site.count; i++) {
        if (i == 0 || spot_order(&all[i - 1], &all[i]) != 0)
            s->prisms[s->count++].readings = &all[i];
        s->prisms[s->count - 1].count++;
    }
}

static int find_epochs(struct series *s)
{
    size_t kept = 0;

    s->epochs = calloc(s->site.count + 1, sizeof *s->epochs);
    if (s->epochs == NULL)
        return out_of_memory();
    for (size_t i = 0; i < s->site.count; i++)
        s->epochs[i] = reading_epoch(s, &s->site.spots[i]);
    qsort(s->epochs, s->site.count, sizeof *s->epochs, by_number);
    for (size_t i = 0; i < s->site.count; i++)
        if (i == 0 || s->epochs[i] != s->epochs[kept - 1])
            s->epochs[kept++] = s->epochs[i];
    s->epoch_count = kept;
    return DONE;
}

static int put_in_order(struct series *s)
{
    s->prisms = calloc(s->site.count + 1, sizeof *s->prisms);
    if (s->prisms == NULL)
        return out_of_memory();
    key_length = s->site.key_size;
    if (s->site.count > 1)
        qsort(s->site.spots, s->site.count, sizeof *s->site.spots, by_key);
    find_prisms(s);
    return DONE;
}

int series_open(struct series *s, const struct options *o, int names_only)
{
    const char *file = o->word[0];
    int status, chosen;

    memset(s, 0, sizeof *s);
    status = (names_only ? site_open_names : site_open)(&s->site, file,
                                                        (unsigned)o->wait);
    if (status == DONE && s->site.key_size <= EPOCH_SIZE)
        status = refuse(file, BHTF_NO_EPOCHS);
    if (status != DONE)
        return status;
    name_readings(&s->site);
    if (find_epochs(s) != DONE)
        return TROUBLE;
    chosen = site_select(&s->site, o, 1);
    status = chosen == TROUBLE ? TROUBLE : put_in_order(s);
    return status == DONE ? chosen : status;
}

void series_close(struct series *s)
{
    site_close(&s->site);
    free(s->prisms);
    free(s->epochs);
}
