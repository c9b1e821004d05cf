/* book: the plain control book that calls on a sound file start from. */
#include "commands.h"

#include "bhtf.h"
#include "image_header.h"
#include "quoted.h"

#include <string.h>

/* K, N, R, U and the number of entries, in document 01's words. */
static void print_terms(const struct buffer *copy, const struct header *h)
{
    printf("version %u.%u.%u\n", h->version[0], h->version[1], h->version[2]);
    printf("key-size %lu\n", (unsigned long)h->key_size);
    printf("slots %lu\n", (unsigned long)h->slots);
    printf("room %lu\n", (unsigned long)(copy->length - h->data));
    printf("used %lu\n", (unsigned long)(h->next - h->data));
    printf("points %lu\n", (unsigned long)h->count);
}

/* The bytes held, whether they are a text or were one; a minus for a point
 * without an offset. */
static int put_held(struct buffer *line, const struct buffer *copy,
                    const struct header *h, uint32_t slot)
{
    struct stretch s;
    char held[16];

    if (!slot_stretch(copy->bytes, h, slot, &s) || s.end == 0)
        return buffer_put(line, " - ", 3);
    snprintf(held, sizeof held, " %lu ",
             (unsigned long)(s.end - s.start - h->message_header));
    return buffer_put(line, held, strlen(held));
}

/* Name, held and text; a minus where there is none: 0, or -1 for no memory. */
static int print_entry(struct buffer *line, const struct buffer *copy,
                       const struct header *h, uint32_t slot)
{
    const uint8_t *key = copy->bytes + slot_offset(h, slot);
    uint32_t offset, length;
    int done;

    bhtf_lookup(copy->bytes, copy->length, key, h->key_size, &offset, &length);
    line->length = 0;
    done = quoted_put_name(line, key, h->key_size) |
           put_held(line, copy, h, slot);
    fwrite(line->bytes, 1, line->length, stdout);
    if (offset == 0)
        putchar('-');
    else
        done |= quoted_print(stdout, copy->bytes + offset, length);
    putchar('\n');
    return done;
}

/* In the order of slots. */
static int print_entries(const struct buffer *copy, const struct header *h)
{
    struct buffer line = { NULL, 0, 0 };
    uint32_t slot, place;
    int done = 0;

    bhtf_walk(copy->bytes, copy->length, 0, &slot, &place);
    while (place != 0 && done == 0) {
        done = print_entry(&line, copy, h, slot);
        bhtf_walk(copy->bytes, copy->length, slot + 1, &slot, &place);
    }
    buffer_free(&line);
    return done == 0 ? finish_output(DONE) : out_of_memory();
}

/* A file that is not sound has no book that it would keep to. */
static int print_book(const struct buffer *copy, const char *file)
{
    const struct header h = header_read(copy->bytes);
    uint32_t verdict, slot;

    bhtf_check(copy->bytes, copy->length, &verdict, &slot);
    if (verdict != BHTF_SOUND) {
        complain("%s: not sound, so it has no book: bhtf check says why", file);
        return REFUSED;
    }
    print_terms(copy, &h);
    return print_entries(copy, &h);
}

int run_book(const struct options *o)
{
    struct buffer copy = { NULL, 0, 0 };
    uint32_t key_size;
    int status = copy_accepted(&copy, o, &key_size);

    if (status == DONE)
        status = print_book(&copy, o->word[0]);
    buffer_free(&copy);
    return status;
}
