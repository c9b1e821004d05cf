/* grow: a larger table in the place of a file's, whole or not at all. */
#include "commands.h"

#include "bhtf_delta.h"
#include "image_header.h"
#include "long_work.h"
#include "short_sum.h"

/* What is told of the file, found out before and after. */
struct told {
    struct header header;
    size_t length;
    char sum[SHORT_SUM];
};

static int look(const struct options *o, struct told *t)
{
    const struct manner how = { 0, (unsigned)o->wait, 1 };
    struct image i;
    uint32_t number, key_size;

    if (image_open(&i, o->word[0], how) != 0)
        return TROUBLE;
    number = ask_header(i.bytes, i.length, &key_size);
    if (number == BHTF_ACCEPTED) {
        t->header = header_read(i.bytes);
        t->length = i.length;
        short_sum(t->sum, i.bytes, i.length);
        say_duration(o->word[0], "grow",
                     slots_displaced(i.bytes, i.length, &t->header),
                     t->header.key_size);
    }
    image_drop(&i);
    return number == BHTF_ACCEPTED ? DONE : refuse(o->word[0], number);
}

static int say_grown(const struct options *o, const struct told *before)
{
    struct told t;
    int status = look(o, &t);

    if (status != DONE || o->quiet)
        return status;
    printf("%s has %lu slots, %lu before: %lu %s, %lu %% of them taken, sum %s\n"
           "%lu bytes, %lu of data used, %lu free\n"
           "its bytes are others, and no delta leads there: send the stations the "
           "file\n", o->word[0], (unsigned long)t.header.slots,
           (unsigned long)before->header.slots, (unsigned long)t.header.count,
           t.header.count == 1 ? "point" : "points",
           (unsigned long)(t.header.count * 100ull / t.header.slots), t.sum,
           (unsigned long)t.length,
           (unsigned long)(t.header.next - t.header.data),
           (unsigned long)(t.length - t.header.next));
    return finish_output(DONE);
}

static int refuse_grow(const struct options *o, uint32_t number,
                       const struct bhtf_file_error *why)
{
    struct buffer copy = { NULL, 0, 0 };

    complain("%s", why->words);
    if (number == BHTF_UNSOUND &&
        image_copy(&copy, o->word[0], (unsigned)o->wait) == 0)
        say_unsound(stderr, &copy, o->quiet);
    buffer_free(&copy);
    return number < BHTF_FILE_SYSTEM ? REFUSED : TROUBLE;
}

int run_grow(const struct options *o)
{
    struct bhtf_file_options options = BHTF_FILE_OPTIONS;
    struct bhtf_file_error why;
    struct told before;
    uint32_t number;
    int status;

    if (!(o->given & OPTION_SLOTS) || o->slots == 0) {
        complain("%s: how many slots is it to have? (--slots N)", o->word[0]);
        return TROUBLE;
    }
    if ((o->given & OPTION_SIZE) && !size_fits(o->size))
        return refuse(o->word[0], BHTF_BAD_LENGTH);
    status = look(o, &before);
    if (status != DONE)
        return status;
    options.wait = (unsigned)o->wait * 1000u;
    if (o->given & OPTION_NO_SYNC)
        options.flags |= BHTF_FILE_NO_SYNC;
    number = bhtf_file_grow(o->word[0], (uint32_t)o->slots, (uint32_t)o->seed,
                            o->given & OPTION_SIZE ? (size_t)o->size : 0,
                            &options, &why);
    return number == BHTF_ACCEPTED ? say_grown(o, &before)
                                   : refuse_grow(o, number, &why);
}
