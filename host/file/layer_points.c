/* The file layer: what a file holds, asked by its handle. */
#include "layer.h"

#include <errno.h>
#include <stdlib.h>
#include <string.h>

enum {
    VERSION_AT = 5, KEY_SIZE_AT = 12, SLOTS_AT = 16, DATA_AT = 48, NEXT_AT = 52,
    EPOCH = 4   /* bytes of an epoch, at a key's end */
};

static uint32_t key_size(const bhtf_file *f)
{
    return layer_u32(f->image + KEY_SIZE_AT);
}

/* ---- numbers ---- */

static void take_numbers(const bhtf_file *f, struct bhtf_file_about *a)
{
    const uint64_t data = layer_u32(f->image + DATA_AT);
    const uint64_t next = layer_u32(f->image + NEXT_AT);

    for (int i = 0; i < 3; i++)
        a->version[i] = f->image[VERSION_AT + i];
    a->key_size = key_size(f);
    a->slots = layer_u32(f->image + SLOTS_AT);
    bhtf_count(f->image, f->length, &a->count);
    a->length = f->length;
    a->used = next - data;
    a->free = f->length - next;
    a->message_max = bhtf_message_max(f->image, f->length);
    a->message_header = bhtf_message_header(f->image, f->length);
}

uint32_t bhtf_file_about(bhtf_file *file, struct bhtf_file_about *about,
                         size_t size)
{
    uint32_t number = layer_ask_file(file);
    struct bhtf_file_about all;

    memset(&all, 0, sizeof all);
    if (number == BHTF_ACCEPTED)
        take_numbers(file, &all);
    memset(about, 0, size);
    memcpy(about, &all, size < sizeof all ? size : sizeof all);
    return number;
}

uint32_t bhtf_file_count(bhtf_file *file, uint32_t *count)
{
    uint32_t number = layer_ask_shown(file);

    *count = 0;
    return number == BHTF_ACCEPTED
        ? layer_refused(file, bhtf_count(file->image, file->length, count))
        : number;
}

uint32_t bhtf_file_check(bhtf_file *file, uint32_t *verdict, uint32_t *slot)
{
    uint32_t number = layer_ask_shown(file);

    *verdict = *slot = 0;
    return number == BHTF_ACCEPTED
        ? layer_refused(file, bhtf_check(file->image, file->length, verdict,
                                         slot))
        : number;
}

/* ---- names ---- */

/* A name of at most `most` bytes, filled up with zeros. */
static uint32_t fill_name(bhtf_file *f, const char *name, size_t most,
                          uint8_t *to)
{
    size_t length = strlen(name);

    if (length == 0 || length > most)
        return layer_fail(f, BHTF_BAD_KEY, 0, "refused (7): the name has %lu "
                          "bytes, and in this file a name has 1 to %lu",
                          (unsigned long)length, (unsigned long)most);
    memset(to, 0, most);
    memcpy(to, name, length);
    return BHTF_ACCEPTED;
}

uint32_t bhtf_file_key(bhtf_file *file, const char *name,
                       uint8_t key[BHTF_KEY_MAX], size_t *length)
{
    uint32_t number = layer_ask_file(file);

    *length = 0;
    if (number == BHTF_ACCEPTED)
        number = fill_name(file, name, key_size(file), key);
    if (number == BHTF_ACCEPTED)
        *length = key_size(file);
    return number;
}

/* The name before an epoch. */
static uint32_t fill_epoch_name(bhtf_file *f, const char *name, uint8_t *to)
{
    uint32_t number = layer_ask_file(f);

    if (number == BHTF_ACCEPTED && key_size(f) <= EPOCH)
        number = layer_refused(f, BHTF_NO_EPOCHS);
    return number == BHTF_ACCEPTED
        ? fill_name(f, name, key_size(f) - EPOCH, to) : number;
}

uint32_t bhtf_file_epoch_key(bhtf_file *file, const char *name, uint32_t epoch,
                             uint8_t key[BHTF_KEY_MAX], size_t *length)
{
    uint32_t number = fill_epoch_name(file, name, key);

    *length = 0;
    if (number != BHTF_ACCEPTED)
        return number;
    *length = key_size(file);
    layer_put_u32(key + *length - EPOCH, epoch);
    return BHTF_ACCEPTED;
}

/* ---- texts ---- */

static void show(const bhtf_file *f, uint32_t offset, uint32_t size,
                 const uint8_t **text, size_t *length)
{
    *text = offset == 0 ? NULL : f->image + offset;
    *length = size;
}

uint32_t bhtf_file_lookup(bhtf_file *file, const uint8_t *key, size_t key_len,
                          const uint8_t **text, size_t *length)
{
    uint32_t offset = 0, size = 0, number = layer_ask_shown(file);

    if (number == BHTF_ACCEPTED)
        number = layer_refused(file, bhtf_lookup(file->image, file->length, key,
                                                 key_len, &offset, &size));
    show(file, offset, size, text, length);
    return number;
}

uint32_t bhtf_file_copy(bhtf_file *file, const uint8_t *key, size_t key_len,
                        uint8_t *to, size_t room, size_t *length)
{
    const uint8_t *text;
    uint32_t number = bhtf_file_lookup(file, key, key_len, &text, length);

    if (number == BHTF_ACCEPTED && text == NULL)
        return layer_fail(file, BHTF_ABSENT, 0, "refused (14): the point has "
                          "no text");
    if (number == BHTF_ACCEPTED && *length > room)
        return layer_fail(file, BHTF_SHORT_SLICE, 0, "refused (16): the text "
                          "has %lu bytes, and there is room for %lu",
                          (unsigned long)*length, (unsigned long)room);
    if (number == BHTF_ACCEPTED && *length > 0)
        memcpy(to, text, *length);
    return number;
}

/* Records that fit; the message's first byte is their width. */
static uint32_t read_columns(bhtf_file *f, const uint8_t *key, size_t key_len,
                             uint8_t *to, size_t room)
{
    uint32_t bytes;

    return layer_refused(f, bhtf_read_columns(f->image, f->length, key, key_len,
                                              to, room, &bytes));
}

uint32_t bhtf_file_read_columns(bhtf_file *file, const uint8_t *key,
                                size_t key_len, uint8_t *to, size_t room,
                                uint32_t *width, size_t *length)
{
    const uint8_t *text;
    size_t size;
    uint32_t number = bhtf_file_lookup(file, key, key_len, &text, &size);
    uint8_t none[1];

    *width = 0;
    *length = 0;
    if (number != BHTF_ACCEPTED)
        return number;
    if (size > 1 && size - 1 > room && text[0] >= 1 &&
        text[0] <= BHTF_WIDTH_MAX && (size - 1) % text[0] == 0) {
        *width = text[0];
        *length = size - 1;
        return layer_fail(file, BHTF_SHORT_SLICE, 0, "refused (16): the records "
                          "have %lu bytes, and there is room for %lu",
                          (unsigned long)*length, (unsigned long)room);
    }
    number = read_columns(file, key, key_len, room > 0 ? to : none, room);
    if (number == BHTF_ACCEPTED) {
        *width = text[0];
        *length = size - 1;
    }
    return number;
}

uint32_t bhtf_file_at_epoch(bhtf_file *file, const char *name, uint32_t epoch,
                            uint32_t *shown, const uint8_t **text,
                            size_t *length)
{
    uint8_t filled[BHTF_KEY_MAX];
    uint32_t offset = 0, size = 0, number = fill_epoch_name(file, name, filled);

    *shown = 0;
    if (number == BHTF_ACCEPTED)
        number = layer_refused(file, bhtf_at_epoch(file->image, file->length,
                                                   filled,
                                                   key_size(file) - EPOCH,
                                                   epoch, shown, &offset,
                                                   &size));
    show(file, offset, size, text, length);
    return number;
}

/* ---- points ---- */

static size_t name_len(const uint8_t *key, size_t length)
{
    while (length > 0 && key[length - 1] == 0)
        length--;
    return length;
}

static void show_point(const bhtf_file *f, uint32_t slot, uint32_t offset,
                       struct bhtf_file_point *p)
{
    uint32_t at, size;

    p->slot = slot;
    p->next = slot + 1;
    p->key = f->image + offset;
    p->key_len = key_size(f);
    p->name_len = name_len(p->key, p->key_len);
    p->number = bhtf_lookup(f->image, f->length, p->key, p->key_len, &at,
                            &size);
    show(f, at, size, &p->text, &p->text_len);
}

uint32_t bhtf_file_walk(bhtf_file *file, struct bhtf_file_point *point)
{
    uint32_t slot = 0, offset = 0, from = point->next;
    uint32_t number = layer_ask_shown(file);

    memset(point, 0, sizeof *point);
    if (number == BHTF_ACCEPTED)
        number = layer_refused(file, bhtf_walk(file->image, file->length, from,
                                               &slot, &offset));
    if (offset != 0)
        show_point(file, slot, offset, point);
    return number;
}

uint32_t bhtf_file_slot(bhtf_file *file, uint32_t slot,
                        struct bhtf_file_point *point)
{
    uint32_t number;

    point->next = slot;
    number = bhtf_file_walk(file, point);
    if (number == BHTF_ACCEPTED && point->key != NULL && point->slot == slot)
        return BHTF_ACCEPTED;
    memset(point, 0, sizeof *point);
    return number == BHTF_ACCEPTED ? layer_refused(file, BHTF_ABSENT) : number;
}

/* ---- names that are half legible ---- */

static uint32_t copy_slots(bhtf_file *f, const uint8_t *list, uint32_t *slots,
                           size_t room, uint32_t found)
{
    if (found > room)
        return layer_fail(f, BHTF_SHORT_SLICE, 0, "refused (16): %lu points "
                          "are found, and there is room for %lu",
                          (unsigned long)found, (unsigned long)room);
    for (uint32_t i = 0; i < found; i++)
        slots[i] = layer_u32(list + (size_t)i * BHTF_SLOT_NUMBER);
    return BHTF_ACCEPTED;
}

uint32_t bhtf_file_select(bhtf_file *file, const uint8_t *lowest,
                          const uint8_t *highest, size_t ranges,
                          uint32_t *slots, size_t room, uint32_t *found)
{
    uint32_t number = layer_ask_file(file);
    uint8_t *list;
    size_t size;

    *found = 0;
    if (number != BHTF_ACCEPTED)
        return number;
    size = (size_t)layer_u32(file->image + SLOTS_AT) * BHTF_SLOT_NUMBER;
    list = malloc(size);
    if (list == NULL)
        return layer_fail(file, BHTF_FILE_SYSTEM, ENOMEM, "nothing was found");
    number = layer_refused(file, bhtf_select(file->image, file->length, lowest,
                                             ranges, highest, ranges, list,
                                             size, found));
    if (number == BHTF_ACCEPTED)
        number = copy_slots(file, list, slots, room, *found);
    free(list);
    return number;
}
