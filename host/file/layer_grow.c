/* The file layer: a larger table in the place of a file's. */
#include "layer.h"

#include <stdio.h>
#include <stdlib.h>

enum { KEY_SIZE_AT = 12, SLOTS_AT = 16, DATA_AT = 48 };

/* ---- how long it is ---- */

/* The texts keep their room, and more slots bring more of it, as far as a file
 * may be long. 0 if no file may have such a table. */
static size_t usual_length(const bhtf_file *f, uint32_t slots)
{
    const uint64_t before = layer_u32(f->image + SLOTS_AT);
    const uint64_t room = f->length - layer_u32(f->image + DATA_AT);
    const uint64_t more = slots <= before ? room : room * slots / before;
    size_t table, whole;

    if (bhtf_image_len(layer_u32(f->image + KEY_SIZE_AT), slots, 0, 0, &table) !=
        BHTF_ACCEPTED)
        return 0;
    whole = table + (size_t)((more + BHTF_PAGE - 1) / BHTF_PAGE * BHTF_PAGE);
    return whole < BHTF_IMAGE_MAX ? whole : BHTF_IMAGE_MAX;
}

static int is_length(size_t length)
{
    return length >= BHTF_PAGE && length <= BHTF_IMAGE_MAX &&
           length % BHTF_PAGE == 0;
}

/* ---- the new image ---- */

/* An empty one of version 2.0.0, which only the converter makes. */
static uint32_t make_wide(uint8_t *image, size_t length, uint32_t key_size,
                          uint32_t slots, uint32_t seed)
{
    size_t table;
    uint32_t number = bhtf_image_len(key_size, slots, 0, 0, &table);
    uint8_t *narrow = number == BHTF_ACCEPTED ? malloc(table) : NULL;

    if (number != BHTF_ACCEPTED)
        return number;
    if (narrow == NULL)
        return BHTF_FILE_SYSTEM;
    number = bhtf_create(narrow, table, key_size, slots, seed);
    if (number == BHTF_ACCEPTED)
        number = bhtf_convert(narrow, table, image, length);
    free(narrow);
    return number;
}

/* An empty one of the file's version and key size. */
static uint32_t make_empty(const bhtf_file *f, uint8_t *image, size_t length,
                           uint32_t slots, uint32_t seed)
{
    const uint32_t key_size = layer_u32(f->image + KEY_SIZE_AT);

    if (bhtf_message_header(f->image, f->length) == BHTF_MESSAGE_HEADER)
        return bhtf_create(image, length, key_size, slots, seed);
    return make_wide(image, length, key_size, slots, seed);
}

/* Each point in its turn, as a move of growth adds it: with its text, which may
 * be empty, or without a message. */
static uint32_t carry(const bhtf_file *f, uint8_t *image, size_t length)
{
    const uint32_t key_size = layer_u32(f->image + KEY_SIZE_AT);
    uint32_t slot, key, number = BHTF_ACCEPTED;

    bhtf_walk(f->image, f->length, 0, &slot, &key);
    while (key != 0 && number == BHTF_ACCEPTED) {
        uint32_t offset, size;

        number = bhtf_lookup(f->image, f->length, f->image + key, key_size,
                             &offset, &size);
        if (number == BHTF_ACCEPTED)
            number = bhtf_add(image, length, f->image + key, key_size,
                              f->image + offset, size,
                              offset == 0 ? BHTF_APPEND : BHTF_NEW);
        bhtf_walk(f->image, f->length, slot + 1, &slot, &key);
    }
    return number;
}

/* ---- in the file's place ---- */

static uint32_t refused(bhtf_file *f, uint32_t number)
{
    if (number == BHTF_FILE_SYSTEM)
        return layer_fail(f, number, 0, "there is no memory for the new table");
    return layer_fail(f, number, 0, "refused (%lu): %s", (unsigned long)number,
                      bhtf_message(number));
}

/* Header and length of all texts of a sound file. */
static uint64_t texts_of(const bhtf_file *f)
{
    const uint32_t key_size = layer_u32(f->image + KEY_SIZE_AT);
    const uint32_t header = bhtf_message_header(f->image, f->length);
    uint32_t slot, key;
    uint64_t sum = 0;

    bhtf_walk(f->image, f->length, 0, &slot, &key);
    while (key != 0) {
        uint32_t offset, size;

        bhtf_lookup(f->image, f->length, f->image + key, key_size, &offset,
                    &size);
        sum += offset == 0 ? 0 : header + size;
        bhtf_walk(f->image, f->length, slot + 1, &slot, &key);
    }
    return sum;
}

/* 21 in words: the table is not larger, or its file is too short. */
static uint32_t unfit(bhtf_file *f, uint32_t slots)
{
    const uint32_t before = layer_u32(f->image + SLOTS_AT);
    size_t table = 0;
    uint64_t least;

    if (slots <= before)
        return layer_fail(f, BHTF_SECOND_UNFIT, 0, "refused (21): its table has "
                          "%lu slots; a larger one needs more",
                          (unsigned long)before);
    bhtf_image_len(layer_u32(f->image + KEY_SIZE_AT), slots, 0, 0, &table);
    least = (table + texts_of(f) + BHTF_PAGE - 1) / BHTF_PAGE * BHTF_PAGE;
    return layer_fail(f, BHTF_SECOND_UNFIT, 0, "refused (21): with %lu slots its "
                      "points need a file of %llu bytes",
                      (unsigned long)slots, (unsigned long long)least);
}

/* What the proved start of growth asks: a sound file, a larger table, and room
 * for what the points have. */
static uint32_t fill(bhtf_file *f, uint8_t *image, size_t length,
                     uint32_t slots, uint32_t seed)
{
    uint32_t number = make_empty(f, image, length, slots, seed);

    if (number == BHTF_ACCEPTED)
        number = bhtf_grow(f->image, f->length, image, length);
    if (number == BHTF_ACCEPTED)
        number = carry(f, image, length);
    return number;
}

static uint32_t grow(bhtf_file *f, uint32_t slots, uint32_t seed, size_t length,
                     struct bhtf_file_error *why)
{
    uint32_t number = layer_ask_file(f);
    bhtf_file_new *made;

    if (number != BHTF_ACCEPTED)
        return number;
    if (length == 0)
        length = usual_length(f, slots);
    if (!is_length(length))
        return refused(f, length == 0 ? BHTF_BAD_SLOTS : BHTF_BAD_LENGTH);
    made = layer_new_over(f, length, why);
    if (made == NULL)
        return BHTF_FILE_SYSTEM;
    number = fill(f, bhtf_file_new_image(made), length, slots, seed);
    if (number == BHTF_ACCEPTED)
        return bhtf_file_new_end(made);
    bhtf_file_new_drop(made);
    return number == BHTF_SECOND_UNFIT ? unfit(f, slots) : refused(f, number);
}

uint32_t bhtf_file_grow(const char *path, uint32_t slots, uint32_t seed,
                        size_t image_len,
                        const struct bhtf_file_options *options,
                        struct bhtf_file_error *why)
{
    struct bhtf_file_error none;
    struct bhtf_file_how how;
    uint32_t number;
    bhtf_file *f;

    if (why == NULL)
        why = &none;
    number = layer_take_options(path, options, &how, why);
    if (number != BHTF_ACCEPTED)
        return number;
    how.flags |= BHTF_FILE_WRITE;
    f = bhtf_file_open(path, &how, why);
    if (f == NULL)
        return why->number;
    why->number = BHTF_ACCEPTED;
    number = grow(f, slots, seed, image_len, why);
    if (number != BHTF_ACCEPTED && why->number == BHTF_ACCEPTED)
        *why = f->why;
    bhtf_file_close(f);
    return number;
}
