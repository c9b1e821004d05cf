/* compact: gives the bytes of dead messages back. */
#include "commands.h"

#include "bhtf.h"
#include "delta_append.h"
#include "image_header.h"

/* Bytes of the data: all of it, and what of it is used. */
struct spaces {
    size_t room;
    uint32_t before;
    uint32_t after;
};

/* One call on an accepted image, of a file or (NULL) of none: the library's
 * number. */
static uint32_t compact(bhtf_file *file, uint8_t *image, size_t length,
                        struct spaces *s)
{
    const struct header before = header_read(image);
    uint32_t number = file == NULL ? bhtf_compact(image, length)
                                   : bhtf_file_compact(file);

    s->room = length - before.data;
    s->before = before.next - before.data;
    s->after = header_read(image).next - before.data;
    return number;
}

static int report(const struct options *o, const struct spaces *s)
{
    if (o->quiet)
        return DONE;
    printf("before: %lu bytes of data used, %lu free\n",
           (unsigned long)s->before, (unsigned long)(s->room - s->before));
    printf("%s: %lu bytes of data used, %lu free, %lu more than before\n",
           o->given & OPTION_DRY_RUN ? "would be" : "after",
           (unsigned long)s->after, (unsigned long)(s->room - s->after),
           (unsigned long)(s->before - s->after));
    return finish_output(DONE);
}

/* A file that is not sound: why, is said in the words of check. */
static int refuse_unsound(const struct options *o, const struct buffer *copy,
                          uint32_t number)
{
    refuse(o->word[0], number);
    say_unsound(stderr, copy, o->quiet);
    return REFUSED;
}

/* On a copy of the file. */
static int try_compact(const struct options *o)
{
    struct buffer copy = { NULL, 0, 0 };
    struct spaces s;
    uint32_t key_size;
    int status = copy_accepted(&copy, o, &key_size);

    if (status == DONE) {
        uint32_t number = compact(NULL, copy.bytes, copy.length, &s);

        status = number == BHTF_ACCEPTED ? report(o, &s)
                                         : refuse_unsound(o, &copy, number);
    }
    buffer_free(&copy);
    return status;
}

/* Looks at the file again, now that its lock is given back. */
static int explain(const struct options *o, uint32_t number)
{
    struct buffer copy = { NULL, 0, 0 };
    uint32_t key_size;
    int status = copy_accepted(&copy, o, &key_size);

    if (status == DONE)
        status = refuse_unsound(o, &copy, number);
    buffer_free(&copy);
    return status;
}

int run_compact(const struct options *o)
{
    struct spaces s;
    struct delta_append f;
    struct image i;
    uint32_t number, key_size;

    if (o->given & OPTION_DRY_RUN)
        return try_compact(o);
    if (image_open(&i, o->word[0], to_change(o)) != 0)
        return TROUBLE;
    number = ask_header(i.bytes, i.length, &key_size);
    if (delta_append_begin(&f, &i,
                           number == BHTF_ACCEPTED ? o->delta : NULL) != 0)
        return TROUBLE;
    if (number == BHTF_ACCEPTED)
        number = compact(i.file, i.bytes, i.length, &s);
    if (delta_append_close(&f, &i) != 0)
        return TROUBLE;
    return number == BHTF_ACCEPTED ? report(o, &s) : explain(o, number);
}
