/* The file layer: a new file without its image in memory. */
#include "layer.h"

#include <stdio.h>

enum { TEXT_USUAL = 256 };  /* bytes of texts for a slot */

/* What cannot be made is refused before space is taken for it. */
static uint32_t ask(uint32_t key_size, uint32_t slots, size_t *image_len)
{
    uint64_t texts = (slots == 0 ? BHTF_SLOTS_DEFAULT : slots) *
                     (uint64_t)TEXT_USUAL;
    size_t least, usual;
    uint32_t number = bhtf_image_len(key_size, slots, 0, 0, &least);

    if (number != BHTF_ACCEPTED)
        return number;
    if (*image_len == 0)
        *image_len = bhtf_image_len(key_size, slots, 0, texts, &usual) ==
                     BHTF_ACCEPTED ? usual : BHTF_IMAGE_MAX;
    if (*image_len < BHTF_PAGE || *image_len > BHTF_IMAGE_MAX ||
        *image_len % BHTF_PAGE != 0)
        return BHTF_BAD_LENGTH;
    return *image_len < least ? BHTF_TABLE_TOO_BIG : BHTF_ACCEPTED;
}

static uint32_t refused(const char *path, uint32_t number,
                        struct bhtf_file_error *why)
{
    char shown[LAYER_SHOWN];

    if (why == NULL)
        return number;
    why->number = number;
    why->error = 0;
    snprintf(why->words, sizeof why->words, "%s: refused (%lu): %s",
             layer_shown(path, shown), (unsigned long)number,
             bhtf_message(number));
    return number;
}

uint32_t bhtf_file_make(const char *path, uint32_t key_size, uint32_t slots,
                        uint32_t seed, size_t image_len,
                        const struct bhtf_file_options *options,
                        struct bhtf_file_error *why)
{
    struct bhtf_file_how how;
    uint32_t number = layer_take_options(path, options, &how, why);
    bhtf_file_new *made;

    if (number != BHTF_ACCEPTED)
        return number;
    number = ask(key_size, slots, &image_len);
    if (number != BHTF_ACCEPTED)
        return refused(path, number, why);
    made = bhtf_file_new_begin(path, image_len, &how, why);
    if (made == NULL)
        return BHTF_FILE_SYSTEM;
    number = bhtf_create(bhtf_file_new_image(made), image_len, key_size, slots,
                         seed);
    if (number == BHTF_ACCEPTED)
        return bhtf_file_new_end(made);
    bhtf_file_new_drop(made);
    return refused(path, number, why);
}
