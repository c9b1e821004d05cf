/* The points that a command line names. */
#include "selection.h"

#include "pattern.h"

#include <stdlib.h>
#include <string.h>

/* A word of the command line. */
struct wanted {
    struct pattern pattern;
    struct buffer name;     /* the word as a name */
    int exact;              /* a point has it */
    size_t matched;
};

struct selection {
    struct wanted *all;
    size_t count;
};

static int has_name(const struct wanted *w, const struct spot *s)
{
    return s->name_length == w->name.length && s->name_length > 0 &&
           memcmp(s->name, w->name.bytes, s->name_length) == 0;
}

static void find_exact(struct wanted *w, const struct site *s)
{
    for (size_t i = 0; i < s->count && !w->exact; i++)
        w->exact = has_name(w, &s->spots[i]);
}

static int wanted_make(struct wanted *w, const char *typed)
{
    if (pattern_make(&w->pattern, typed) != 0 ||
        name_read(&w->name, (const uint8_t *)typed, strlen(typed)) != 0)
        return -1;
    while (w->name.length > 0 && w->name.bytes[w->name.length - 1] == 0)
        w->name.length--;
    return 0;
}

static int selection_make(struct selection *all, const struct options *o,
                          int first)
{
    all->count = 0;
    all->all = calloc((size_t)(o->words - first), sizeof *all->all);
    if (all->all == NULL)
        return -1;
    for (int i = first; i < o->words; i++)
        if (wanted_make(&all->all[all->count++], o->word[i]) != 0)
            return -1;
    return 0;
}

static void selection_free(struct selection *all)
{
    for (size_t i = 0; i < all->count; i++) {
        pattern_free(&all->all[i].pattern);
        buffer_free(&all->all[i].name);
    }
    free(all->all);
}

static int names(const struct wanted *w, const struct spot *s)
{
    return w->exact ? has_name(w, s)
                    : pattern_matches(&w->pattern, s->name, s->name_length);
}

/* Every word is asked, so that each knows whether it names a point. */
static int is_wanted(struct selection *all, const struct spot *s)
{
    int wanted = 0;

    for (size_t i = 0; i < all->count; i++)
        if (names(&all->all[i], s)) {
            all->all[i].matched++;
            wanted = 1;
        }
    return wanted;
}

static void choose(struct selection *all, struct site *s)
{
    size_t kept = 0;

    memset(s->kinds, 0, sizeof s->kinds);
    for (size_t i = 0; i < s->count; i++)
        if (is_wanted(all, &s->spots[i])) {
            s->kinds[s->spots[i].kind]++;
            s->spots[kept++] = s->spots[i];
        }
    s->count = kept;
}

static int say_missing(const struct selection *all, const struct options *o,
                       int first)
{
    int status = DONE;

    for (size_t i = 0; i < all->count; i++)
        if (all->all[i].matched == 0) {
            complain("%s: no name matches %s", o->word[0],
                     o->word[(size_t)first + i]);
            status = REFUSED;
        }
    return status;
}

int sites_select(struct site *const sites[], size_t count,
                 const struct options *o, int first)
{
    struct selection all;
    int status;

    if (o->words <= first)
        return DONE;
    if (selection_make(&all, o, first) != 0) {
        selection_free(&all);
        return out_of_memory();
    }
    for (size_t i = 0; i < all.count; i++)
        for (size_t j = 0; j < count; j++)
            find_exact(&all.all[i], sites[j]);
    for (size_t j = 0; j < count; j++)
        choose(&all, sites[j]);
    status = say_missing(&all, o, first);
    selection_free(&all);
    return status;
}

int site_select(struct site *s, const struct options *o, int first)
{
    return sites_select(&s, 1, o, first);
}

int order_read(const struct options *o, int usual, int *by_name)
{
    *by_name = o->by == NULL ? usual : strcmp(o->by, "name") == 0;
    if (*by_name || o->by == NULL || strcmp(o->by, "slot") == 0)
        return DONE;
    complain("--by name or --by slot, not %s", o->by);
    return TROUBLE;
}
