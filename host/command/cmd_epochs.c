/* at: a point's text at an epoch. epochs: which epochs the file has. */
#include "commands.h"

#include "bhtf.h"
#include "epoch.h"
#include "point.h"
#include "series.h"

#include <string.h>

/* ---- at ---- */

/* The entry that was chosen. */
struct shown {
    uint32_t epoch;
    struct piece text;
    int has_text;
};

static int refuse_at(const struct options *o, uint32_t number,
                     uint32_t key_size)
{
    if (number == BHTF_ABSENT)
        complain("%s: %s: refused (14): no entry of that name has an epoch at "
                 "most %s", o->word[0], o->word[1], o->word[2]);
    else if (number == BHTF_BAD_KEY)
        complain("%s: %s: refused (7): a name in this file of epochs has at "
                 "most %lu bytes", o->word[0], o->word[1],
                 (unsigned long)(key_size - EPOCH_SIZE));
    else
        return refuse_point(o->word[0], o->word[1], number, key_size, 0);
    return REFUSED;
}

static int choose(struct shown *s, const struct options *o,
                  const struct buffer *copy, uint32_t key_size, uint32_t epoch)
{
    uint32_t room = key_size < EPOCH_SIZE ? 0 : key_size - EPOCH_SIZE;
    struct buffer name = { NULL, 0, 0 };
    uint32_t number, offset, length;

    if (key_from(&name, (const uint8_t *)o->word[1], strlen(o->word[1]),
                 room) != 0) {
        buffer_free(&name);
        return out_of_memory();
    }
    number = bhtf_at_epoch(copy->bytes, copy->length, name.bytes, name.length,
                           epoch, &s->epoch, &offset, &length);
    buffer_free(&name);
    if (number != BHTF_ACCEPTED)
        return refuse_at(o, number, key_size);
    s->text.bytes = copy->bytes + offset;
    s->text.length = length;
    s->has_text = offset != 0;
    return DONE;
}

static int put_shown(const struct options *o, const struct shown *s)
{
    if (!s->has_text)
        return no_text(o, o->word[1]);
    printf("%lu\t", (unsigned long)s->epoch);
    fwrite(s->text.bytes, 1, s->text.length, stdout);
    if (s->text.length == 0 || s->text.bytes[s->text.length - 1] != '\n')
        putchar('\n');
    return finish_output(DONE);
}

int run_at(const struct options *o)
{
    struct buffer copy = { NULL, 0, 0 };
    uint32_t key_size, epoch;
    struct shown s;
    int status = epoch_wanted(o, o->word[2], &epoch);

    if (status == DONE)
        status = copy_accepted(&copy, o, &key_size);
    if (status == DONE)
        status = choose(&s, o, &copy, key_size, epoch);
    if (status == DONE)
        status = put_shown(o, &s);
    buffer_free(&copy);
    return status;
}

/* ---- epochs ---- */

/* A line for each name: the name, how many epochs, and which. */
static int put_epochs(const struct series *s)
{
    struct buffer name = { NULL, 0, 0 };

    for (size_t i = 0; i < s->count; i++) {
        const struct prism *p = &s->prisms[i];

        if (spot_show(&name, p->readings) != 0) {
            buffer_free(&name);
            return out_of_memory();
        }
        printf("%s\t%lu\t", (const char *)name.bytes,
               (unsigned long)p->count);
        for (size_t k = 0; k < p->count; k++)
            printf("%s%lu", k > 0 ? " " : "",
                   (unsigned long)reading_epoch(s, &p->readings[k]));
        putchar('\n');
    }
    buffer_free(&name);
    return DONE;
}

int run_epochs(const struct options *o)
{
    struct series s;
    int status = series_open(&s, o, 1);

    if (s.prisms != NULL && put_epochs(&s) != DONE)
        status = TROUBLE;
    series_close(&s);
    return finish_output(status);
}
