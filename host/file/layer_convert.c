/* The file layer: a new file of an open one's image, of the other version. */
#include "layer.h"

enum { KEY_SIZE_AT = 12, DATA_AT = 48, NEXT_AT = 52 };

/* The length of the shortest file of the other version that holds what a sound
 * image does. One that is not sound will be refused. */
static uint64_t least_length(const uint8_t *image, size_t length)
{
    const uint32_t key_size = layer_u32(image + KEY_SIZE_AT);
    const uint32_t header = bhtf_message_header(image, length);
    const uint64_t next = layer_u32(image + NEXT_AT);
    uint64_t end = layer_u32(image + DATA_AT);
    uint32_t slot, key, texts = 0;

    bhtf_walk(image, length, 0, &slot, &key);
    while (key != 0) {
        uint32_t offset, size;

        bhtf_lookup(image, length, image + key, key_size, &offset, &size);
        end += offset == 0 ? 0 : header + size;
        texts += offset != 0;
        bhtf_walk(image, length, slot + 1, &slot, &key);
    }
    end = end < next ? end : next; /* messages do not share bytes */
    end = header == BHTF_MESSAGE_HEADER ? end + texts : end - texts;
    return (end + BHTF_PAGE - 1) / BHTF_PAGE * BHTF_PAGE;
}

/* As long as the file, or as it must be; no longer than a file may be, where
 * question 13 then says so. */
static size_t usual_length(const uint8_t *image, size_t length)
{
    uint64_t least = least_length(image, length);

    if (least <= length)
        return length;
    return least <= BHTF_IMAGE_MAX ? (size_t)least : BHTF_IMAGE_MAX;
}

static int is_length(size_t length)
{
    return length >= BHTF_PAGE && length <= BHTF_IMAGE_MAX &&
           length % BHTF_PAGE == 0;
}

static uint32_t refused(bhtf_file *f, uint32_t number)
{
    if (number == BHTF_NO_ROOM)
        return layer_fail(f, number, 0, "refused (13): its messages need a file "
                          "of %llu bytes in the other version",
                          (unsigned long long)least_length(f->image, f->length));
    return layer_fail(f, number, 0, "refused (%lu): %s", (unsigned long)number,
                      bhtf_message(number));
}

/* The new file's length is asked before its space is taken. */
static uint32_t ask_lengths(bhtf_file *f, size_t *image_len)
{
    uint32_t count, number = layer_ask_shown(f);

    if (number != BHTF_ACCEPTED)
        return number;
    if (*image_len != 0 && !is_length(*image_len))
        return refused(f, BHTF_BAD_LENGTH);
    number = bhtf_count(f->image, f->length, &count);
    if (number != BHTF_ACCEPTED)
        return refused(f, number);
    if (*image_len == 0)
        *image_len = usual_length(f->image, f->length);
    return BHTF_ACCEPTED;
}

uint32_t bhtf_file_convert(bhtf_file *file, const char *path, size_t image_len)
{
    uint32_t number = ask_lengths(file, &image_len);
    bhtf_file_new *made;

    if (number != BHTF_ACCEPTED)
        return number;
    made = bhtf_file_new_begin(path, image_len, &file->how, &file->why);
    if (made == NULL)
        return BHTF_FILE_SYSTEM;
    number = bhtf_convert(file->image, file->length, bhtf_file_new_image(made),
                          image_len);
    if (number == BHTF_ACCEPTED)
        return bhtf_file_new_end(made);
    bhtf_file_new_drop(made);
    return refused(file, number);
}
