/* copy: another file with the same bytes, taken under the lock. */
#include "commands.h"

#include "image_header.h"
#include "short_sum.h"

#include <string.h>

/* What was copied, and what a station compares. */
static int say_copied(const struct options *o, const struct buffer *copy)
{
    unsigned long points = header_read(copy->bytes).count;
    char sum[SHORT_SUM];

    if (say_unsound(stderr, copy, 1) == REFUSED)
        complain("warning: %s is not sound, and so is its copy; see bhtf check",
                 o->word[0]);
    if (o->quiet)
        return DONE;
    short_sum(sum, copy->bytes, copy->length);
    printf("%s is %s: %lu %s, sum %s\n", o->word[1], o->word[0], points,
           points == 1 ? "point" : "points", sum);
    return finish_output(DONE);
}

static int write_new(const struct options *o, const struct buffer *copy)
{
    struct image i;

    if (image_create(&i, o->word[1], copy->length,
                     !(o->given & OPTION_NO_SYNC)) != 0)
        return TROUBLE;
    memcpy(i.bytes, copy->bytes, copy->length);
    return image_close(&i) == 0 ? DONE : TROUBLE;
}

int run_copy(const struct options *o)
{
    struct buffer copy = { NULL, 0, 0 };
    uint32_t key_size;
    int status = copy_accepted(&copy, o, &key_size);

    if (status == DONE)
        status = write_new(o, &copy);
    if (status == DONE)
        status = say_copied(o, &copy);
    buffer_free(&copy);
    return status;
}
