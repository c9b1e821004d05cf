/* delta: what changed from one file to another, for the stations. */
#include "commands.h"

#include "bhtf_delta.h"

#include <stdlib.h>
#include <string.h>
#include <unistd.h>

static int print_record(const struct options *o, const uint8_t *record,
                        size_t size)
{
    struct bhtf_delta delta;

    bhtf_delta_head(record, size, &delta);
    if (!o->quiet && memcmp(delta.before, delta.after, BHTF_SUM) == 0)
        complain("%s and %s are equal; the delta changes nothing", o->word[0],
                 o->word[1]);
    fwrite(record, 1, size, stdout);
    return finish_output(DONE);
}

/* Of images that the library accepts, and of one length. */
static int print_delta(const struct options *o, const struct buffer *old,
                       const struct buffer *now)
{
    uint8_t *record;
    size_t size;
    int status;

    bhtf_delta_make(old->bytes, now->bytes, now->length, NULL, NULL, 0, &size);
    record = malloc(size);
    if (record == NULL)
        return out_of_memory();
    bhtf_delta_make(old->bytes, now->bytes, now->length, NULL, record, size,
                    &size);
    status = print_record(o, record, size);
    free(record);
    return status;
}

/* A copy of the file that a word names, if the library accepts it. */
static int copy_word(struct buffer *copy, const struct options *o, int word)
{
    uint32_t number, key_size;

    if (image_copy(copy, o->word[word], (unsigned)o->wait) != 0)
        return TROUBLE;
    number = ask_header(copy->bytes, copy->length, &key_size);
    return number == BHTF_ACCEPTED ? DONE : refuse(o->word[word], number);
}

int run_delta(const struct options *o)
{
    struct buffer old = { NULL, 0, 0 }, now = { NULL, 0, 0 };
    int status;

    if (isatty(STDOUT_FILENO)) {
        complain("delta: what it prints is not for a terminal; put > FILE "
                 "behind it");
        return TROUBLE;
    }
    status = copy_word(&old, o, 0);
    if (status == DONE)
        status = copy_word(&now, o, 1);
    if (status == DONE && old.length != now.length) {
        complain("%s has %lu bytes and %s %lu; a delta leads to a file of the "
                 "same length: send the whole file", o->word[0],
                 (unsigned long)old.length, o->word[1],
                 (unsigned long)now.length);
        status = REFUSED;
    }
    if (status == DONE)
        status = print_delta(o, &old, &now);
    buffer_free(&old);
    buffer_free(&now);
    return status;
}
