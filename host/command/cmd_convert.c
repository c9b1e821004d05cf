/* convert: a new file of the other version, whole or not at all. */
#include "commands.h"

#include "bhtf.h"
#include "command_limits.h"
#include "file_version.h"
#include "image_header.h"
#include "long_work.h"
#include "short_sum.h"
#include "space_used.h"

/* ---- how long it is ---- */

/* The shortest file of the other version that holds what a sound one does. */
static uint64_t least_size(const struct buffer *view)
{
    const struct header h = header_read(view->bytes);
    const struct space s = space_measure(view, &h);
    uint64_t end = h.data + s.active;

    if (end > h.next)
        end = h.next; /* of one that is not sound, which will be refused */
    end = h.message_header == BHTF_MESSAGE_HEADER ? end + s.texts
                                                  : end - s.texts;
    return (end + BHTF_PAGE - 1) / BHTF_PAGE * BHTF_PAGE;
}

/* As long as the old one, if the points fit into that. */
static size_t new_size(const struct options *o, const struct buffer *view)
{
    uint64_t least;

    if (o->given & OPTION_SIZE)
        return (size_t)o->size;
    least = least_size(view);
    if (least <= view->length)
        return view->length;
    return least <= BHTF_IMAGE_MAX ? (size_t)least : BHTF_IMAGE_MAX;
}

/* ---- what was refused ---- */

static void name_long_text(const char *file, const uint8_t *key,
                           uint32_t key_size, uint32_t length)
{
    struct buffer name = { NULL, 0, 0 };

    if (name_show(&name, key, key_size) != 0)
        out_of_memory();
    else
        complain("%s: %.*s: its text has %lu bytes", file, (int)name.length,
                 (const char *)name.bytes, (unsigned long)length);
    buffer_free(&name);
}

/* The first points whose texts version 1.0.2 cannot hold. */
static void name_long_texts(const char *file, const struct buffer *view)
{
    const uint32_t key_size = header_read(view->bytes).key_size;
    uint32_t slot, key, shown = 0;

    bhtf_walk(view->bytes, view->length, 0, &slot, &key);
    while (key != 0 && shown < REFUSALS_SHOWN) {
        uint32_t offset, length;

        bhtf_lookup(view->bytes, view->length, view->bytes + key, key_size,
                    &offset, &length);
        if (length > BHTF_MESSAGE_MAX) {
            name_long_text(file, view->bytes + key, key_size, length);
            shown++;
        }
        bhtf_walk(view->bytes, view->length, slot + 1, &slot, &key);
    }
}

static int refuse_room(const struct options *o, const struct buffer *view)
{
    uint64_t least = least_size(view);

    if (least > BHTF_IMAGE_MAX)
        complain("%s: refused (13): the points of %s need %llu bytes in a file "
                 "of the other version, and no file may be longer than %lu",
                 o->word[1], o->word[0], (unsigned long long)least,
                 (unsigned long)BHTF_IMAGE_MAX);
    else
        complain("%s: refused (13): the points of %s need a file of %llu bytes "
                 "(--size)", o->word[1], o->word[0],
                 (unsigned long long)least);
    return REFUSED;
}

static int refuse_convert(const struct options *o, const struct buffer *view,
                          uint32_t number)
{
    if (number == BHTF_NO_ROOM)
        return refuse_room(o, view);
    refuse(o->word[0], number);
    if (number == BHTF_UNSOUND)
        say_unsound(stderr, view, o->quiet);
    if (number == BHTF_TOO_LONG_FOR_1)
        name_long_texts(o->word[0], view);
    return REFUSED;
}

/* ---- what was made ---- */

static void say_stations(struct version v)
{
    if (version_is_wide(v))
        printf("texts may have up to %lu bytes; a station whose library knows "
               "only version 1\nrefuses it (5)\n",
               (unsigned long)BHTF_MESSAGE_MAX_2);
    else
        puts("a station that knows version 1.0.2 can read it; one that knows "
             "only 1.0.1 or\n1.0.0 refuses it (5)");
}

/* What is told of a new file, found out before it is closed. */
struct made {
    struct header header;
    struct version version;
    size_t length;
    char sum[SHORT_SUM];
};

static struct made look_at(const struct image *new)
{
    struct made m;

    m.header = header_read(new->bytes);
    m.version = version_of(new->bytes);
    m.length = new->length;
    short_sum(m.sum, new->bytes, new->length);
    return m;
}

static int say_made(const struct options *o, const struct made *m)
{
    const struct header *h = &m->header;

    if (o->quiet)
        return DONE;
    printf("%s is %s as version %u.%u.%u: %lu %s, sum %s\n"
           "%lu bytes, %lu of data used, %lu free\n", o->word[1], o->word[0],
           h->version[0], h->version[1], h->version[2],
           (unsigned long)h->count, h->count == 1 ? "point" : "points", m->sum,
           (unsigned long)m->length, (unsigned long)(h->next - h->data),
           (unsigned long)(m->length - h->next));
    say_stations(m->version);
    return finish_output(DONE);
}

/* Every point is searched for. */
static void warn(const struct options *o, const struct image *old)
{
    const struct header h = header_read(old->bytes);

    say_duration(o->word[0], "convert",
                 slots_displaced(old->bytes, old->length, &h), h.key_size);
}

/* Makes the new file of an accepted one, which is then closed: who changes it
 * need not wait for the disk. */
static int make_new(const struct options *o, struct image *old)
{
    struct buffer view = { NULL, 0, 0 };
    struct image new;
    struct made m;
    uint32_t number;
    int status;

    view.bytes = old->bytes;
    view.length = old->length;
    if (image_create(&new, o->word[1], new_size(o, &view),
                     !(o->given & OPTION_NO_SYNC)) != 0) {
        image_drop(old);
        return TROUBLE;
    }
    number = bhtf_convert(old->bytes, old->length, new.bytes, new.length);
    if (number != BHTF_ACCEPTED) {
        status = refuse_convert(o, &view, number);
        image_drop(&new);
        image_drop(old);
        return status;
    }
    image_drop(old);
    m = look_at(&new);
    return image_close(&new) == 0 ? say_made(o, &m) : TROUBLE;
}

int run_convert(const struct options *o)
{
    const struct manner how = { 0, (unsigned)o->wait, 1 };
    uint32_t number, key_size;
    struct image old;

    if ((o->given & OPTION_SIZE) && !size_fits(o->size))
        return refuse(o->word[1], BHTF_BAD_LENGTH);
    if (image_open(&old, o->word[0], how) != 0)
        return TROUBLE;
    number = ask_header(old.bytes, old.length, &key_size);
    if (number == BHTF_ACCEPTED) {
        warn(o, &old);
        return make_new(o, &old);
    }
    image_drop(&old);
    return refuse(o->word[0], number);
}
