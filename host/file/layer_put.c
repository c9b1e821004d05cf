/* The file layer: a whole image in the place of a file. */
#include "bhtf_delta.h"
#include "layer.h"

#include <errno.h>
#include <stdio.h>
#include <string.h>

/* What cannot be a file's image is refused before anything is touched. */
static uint32_t ask_image(const char *path, const uint8_t *image,
                          size_t image_len, struct bhtf_file_error *why)
{
    uint32_t count, number = bhtf_count(image, image_len, &count);
    char shown[LAYER_SHOWN];

    if (number == BHTF_ACCEPTED)
        return number;
    why->number = number;
    why->error = 0;
    snprintf(why->words, sizeof why->words, "%s: the new image is refused "
             "(%lu): %s", layer_shown(path, shown), (unsigned long)number,
             bhtf_message(number));
    return number;
}

/* One that is no control point file at all is not replaced: the name may be a
 * mistake. */
static uint32_t ask_old(bhtf_file *f, struct bhtf_file_error *why)
{
    static const uint8_t begins[4] = { 'B', 'H', 'T', 'F' };

    if (f->length == 0 || (f->length >= sizeof begins &&
                           memcmp(f->image, begins, sizeof begins) == 0))
        return BHTF_ACCEPTED;
    layer_fail(f, BHTF_BAD_VERSION, 0, "is no control point file, and is not "
               "replaced");
    *why = f->why;
    return BHTF_BAD_VERSION;
}

/* In the place of a file that is open to be written, and has no journal. */
static uint32_t put_over(bhtf_file *f, const uint8_t *image, size_t image_len,
                         struct bhtf_file_error *why)
{
    bhtf_file_new *made = layer_new_over(f, image_len, why);

    if (made == NULL)
        return BHTF_FILE_SYSTEM;
    memcpy(bhtf_file_new_image(made), image, image_len);
    return bhtf_file_new_end(made);
}

static uint32_t put(const char *path, const uint8_t *image, size_t image_len,
                    const struct bhtf_file_how *how,
                    struct bhtf_file_error *why)
{
    bhtf_file *f = bhtf_file_open(path, how, why);
    uint32_t number;

    if (f == NULL)
        return why->number == BHTF_FILE_SYSTEM && why->error == ENOENT
            ? bhtf_file_create(path, image, image_len, how, why) : why->number;
    number = ask_old(f, why);
    if (number == BHTF_ACCEPTED)
        number = put_over(f, image, image_len, why);
    bhtf_file_close(f);
    return number;
}

uint32_t bhtf_file_put(const char *path, const uint8_t *image,
                       size_t image_len,
                       const struct bhtf_file_options *options,
                       struct bhtf_file_error *why)
{
    struct bhtf_file_error none;
    struct bhtf_file_how how;
    uint32_t number;

    if (why == NULL)
        why = &none;
    number = layer_take_options(path, options, &how, why);
    how.flags |= BHTF_FILE_WRITE;
    if (number == BHTF_ACCEPTED)
        number = ask_image(path, image, image_len, why);
    return number == BHTF_ACCEPTED ? put(path, image, image_len, &how, why)
                                   : number;
}
