/* delete for several points, and for those that a pattern names: all of them as
 * one change, or none. */
#include "commands.h"

#include "delta_append.h"
#include "pattern.h"
#include "selection.h"

#include <string.h>

struct removal {
    const struct options *o;
    struct image image;
    struct delta_append append;
    uint32_t key_size;
    struct buffer keys;   /* of the points, one after the other */
    size_t count;
};

static int is_dry(const struct removal *r)
{
    return (r->o->given & OPTION_DRY_RUN) != 0;
}

/* Does a word look like a pattern? 1 also for no memory: the site tells. */
static int looks_wild(const char *word)
{
    struct pattern p;
    int wild = pattern_make(&p, word) != 0 || p.wild;

    pattern_free(&p);
    return wild;
}

/* ---- which points ---- */

static int keep_key(struct removal *r, const struct spot *s)
{
    int done = buffer_put(&r->keys, s->name, s->name_length);

    for (size_t i = s->name_length; i < r->key_size && done == 0; i++)
        done = buffer_put_byte(&r->keys, 0);
    r->count++;
    return done;
}

/* The keys of all points that are named; nothing is taken out if one word names
 * none. */
static int find_points(struct removal *r)
{
    struct site s;
    int status = site_of_image(&s, r->image.bytes, r->image.length);

    if (status == DONE)
        status = site_select(&s, r->o, 1);
    if (status == DONE)
        site_sort(&s);
    for (size_t i = 0; i < s.count && status == DONE; i++)
        if (keep_key(r, &s.spots[i]) != 0)
            status = out_of_memory();
    site_close(&s);
    return status;
}

/* ---- out with them ---- */

static int show_key(struct buffer *shown, const struct removal *r, size_t i)
{
    shown->length = 0;
    return name_show(shown, r->keys.bytes + i * r->key_size, r->key_size) |
           buffer_put_byte(shown, '\0');
}

static int take_out(struct removal *r)
{
    struct buffer shown = { NULL, 0, 0 };
    int status = DONE;

    for (size_t i = 0; i < r->count && status == DONE; i++) {
        const uint8_t *key = r->keys.bytes + i * r->key_size;
        uint32_t number = BHTF_ACCEPTED;

        if (!is_dry(r))
            number = bhtf_file_delete(r->image.file, key, r->key_size);
        if (show_key(&shown, r, i) != 0)
            status = out_of_memory();
        else if (number != BHTF_ACCEPTED)
            status = refuse_point(r->o->word[0], (const char *)shown.bytes,
                                  number, r->key_size, 0);
        else if (is_dry(r) && !r->o->quiet)
            puts((const char *)shown.bytes);
    }
    buffer_free(&shown);
    return status;
}

static int report(const struct removal *r)
{
    if (!r->o->quiet)
        printf("%lu %s %staken out\n", (unsigned long)r->count,
               r->count == 1 ? "point" : "points",
               is_dry(r) ? "would be " : "");
    return finish_output(DONE);
}

/* ---- the command ---- */

static int open_file(struct removal *r)
{
    struct manner how = to_change(r->o);
    uint32_t number;
    int status = DONE;

    how.writing = !is_dry(r);
    if (image_open(&r->image, r->o->word[0], how) != 0)
        return TROUBLE;
    number = ask_header(r->image.bytes, r->image.length, &r->key_size);
    if (number != BHTF_ACCEPTED)
        status = refuse(r->o->word[0], number);
    if (status != DONE)
        image_drop(&r->image);
    else if (delta_append_begin(&r->append, &r->image,
                                is_dry(r) ? NULL : r->o->delta) != 0)
        status = TROUBLE;
    return status;
}

static int remove_points(struct removal *r)
{
    int status = find_points(r);

    if (status == DONE)
        status = take_out(r);
    if (status != DONE || is_dry(r))
        delta_append_drop(&r->append, &r->image);
    else if (delta_append_close(&r->append, &r->image) != 0)
        status = TROUBLE;
    return status == DONE ? report(r) : status;
}

int run_take_out(const struct options *o)
{
    struct removal r;
    int status;

    if (o->words == 2 && !(o->given & OPTION_DRY_RUN) &&
        !looks_wild(o->word[1]))
        return run_delete(o);
    if (o->given & OPTION_SLOTS_READ) {
        complain("delete: --slots goes with one name");
        return TROUBLE;
    }
    memset(&r, 0, sizeof r);
    r.o = o;
    status = open_file(&r);
    if (status == DONE)
        status = remove_points(&r);
    buffer_free(&r.keys);
    return status;
}
