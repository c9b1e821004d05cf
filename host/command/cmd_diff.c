/* diff: what became of the points from one file to another. */
#include "commands.h"

#include "change.h"
#include "selection.h"

#include <string.h>

struct difference {
    const struct options *o;
    struct site old;
    struct site now;
    struct reckoning r;
};

static void print_sum(const struct difference *d)
{
    char line[256];

    if (d->o->quiet || d->o->given & OPTION_TSV)
        return;
    counts_words(line, sizeof line, &d->r);
    puts(line);
}

static int compare(struct difference *d)
{
    struct site *const both[] = { &d->old, &d->now };
    int missing = sites_select(both, 2, d->o, 2);

    if (missing != DONE ||
        differences_print(&d->r, &d->old, &d->now,
                          (d->o->given & OPTION_TSV) != 0, stdout) != DONE)
        return TROUBLE;
    print_sum(d);
    return finish_output(is_changed(&d->r) ? REFUSED : DONE);
}

/* Status 1 is for what changed: a file that is refused is trouble. */
static int open_both(struct difference *d)
{
    unsigned wait = (unsigned)d->o->wait;

    if (tolerance_read(&d->r.tolerance, d->o->tolerance) != 0) {
        complain("diff: --tolerance needs millimetres, as 3 or 3mm");
        return TROUBLE;
    }
    return site_open(&d->old, d->o->word[0], wait) == DONE &&
           site_open(&d->now, d->o->word[1], wait) == DONE ? DONE : TROUBLE;
}

int run_diff(const struct options *o)
{
    struct difference d;
    int status;

    memset(&d, 0, sizeof d);
    d.o = o;
    status = open_both(&d);
    if (status == DONE)
        status = compare(&d);
    reckoning_free(&d.r);
    site_close(&d.old);
    site_close(&d.now);
    return status;
}
