/* The plain control book of 01-scope.md and 02-change-requests.md. */
#include "book.h"

#include <stdlib.h>
#include <string.h>

#define LONGEST 16777215u        /* text of version 1 */
#define LONGEST_OF_2 1073741823u /* of version 2.0.0 */

static void *must(void *memory)
{
    if (memory == NULL)
        abort();
    return memory;
}

/* What table and header take. */
static uint64_t data_offset(const struct book *b)
{
    uint64_t end = 2048 + (uint64_t)b->slots * (b->key_size + 4);

    return (end + 4095) / 4096 * 4096;
}

void book_open(struct book *b, size_t image_len, uint32_t key_size,
               uint32_t slots)
{
    memset(b, 0, sizeof *b);
    b->key_size = key_size;
    b->slots = slots == 0 ? 5507 : slots;
    b->header = 4;
    b->longest = LONGEST;
    b->room = image_len - data_offset(b);
}

void book_close(struct book *b)
{
    for (uint32_t i = 0; i < b->count; i++)
        free(b->entries[i].text);
    free(b->entries);
    free(b->scratch);
    memset(b, 0, sizeof *b);
}

/* Question 7. */
static int name_fits(const struct book *b, const uint8_t *key, size_t length)
{
    if (length != b->key_size)
        return 0;
    for (size_t i = 0; i < length; i++)
        if (key[i] != 0)
            return 1;
    return 0;
}

static struct entry *find(const struct book *b, const uint8_t *key)
{
    for (uint32_t i = 0; i < b->count; i++)
        if (memcmp(b->entries[i].name, key, b->key_size) == 0)
            return &b->entries[i];
    return NULL;
}

static struct entry *new_entry(struct book *b, const uint8_t *key)
{
    struct entry *e;

    if (b->count == b->capacity) {
        b->capacity = b->capacity == 0 ? 8 : 2 * b->capacity;
        b->entries = must(
            realloc(b->entries, b->capacity * sizeof *b->entries));
    }
    e = &b->entries[b->count++];
    memset(e, 0, sizeof *e);
    memcpy(e->name, key, b->key_size);
    return e;
}

/* Questions 12 and 13 for t bytes of new space. */
static uint32_t ask_space(const struct book *b, uint64_t t)
{
    if (t > b->longest)
        return 12;
    return b->used + b->header + t > b->room ? 13 : 0;
}

/* The text becomes its first kept bytes and the data behind them. */
static void set_text(struct entry *e, uint32_t kept, const uint8_t *data,
                     size_t m)
{
    if (m > 0) {
        e->text = must(realloc(e->text, kept + m));
        memcpy(e->text + kept, data, m);
    }
    e->length = kept + (uint32_t)m;
    e->noted = 1;
}

/* New space for the text's first kept bytes and the data behind them. */
static uint32_t set_in_new_space(struct book *b, struct entry *e,
                                 uint32_t kept, const uint8_t *data, size_t m)
{
    uint32_t answer = ask_space(b, (uint64_t)kept + m);

    if (answer != 0)
        return answer;
    set_text(e, kept, data, m);
    e->held = e->length;
    e->placed = 1;
    b->used += b->header + (uint64_t)e->length;
    return 0;
}

/* Nothing appended gives an absent name the text none and no offset. */
static uint32_t add_new(struct book *b, const uint8_t *key,
                        const uint8_t *data, size_t m, uint32_t mode)
{
    uint32_t answer;

    if (b->count == b->slots)
        return 10;
    if (m == 0 && mode == 3) {
        new_entry(b, key);
        return 0;
    }
    answer = ask_space(b, m);
    if (answer != 0)
        return answer;
    return set_in_new_space(b, new_entry(b, key), 0, data, m);
}

/* Empty data takes new space where there is no offset. */
static uint32_t replace_text(struct book *b, struct entry *e,
                             const uint8_t *data, size_t m)
{
    if (m == 0 ? e->placed : m <= e->held) {
        set_text(e, 0, data, m);
        e->held = (uint32_t)m;
        return 0;
    }
    return set_in_new_space(b, e, 0, data, m);
}

/* ---- a book read off an image ---- */

static uint32_t number_at(const uint8_t *at)
{
    return (uint32_t)at[0] << 24 | (uint32_t)at[1] << 16 |
           (uint32_t)at[2] << 8 | at[3];
}

/* The message at an offset other than 0: a letter and a length of 3 bytes, or
 * 4. */
static void read_message(const struct book *b, struct entry *e,
                         const uint8_t *at)
{
    e->placed = 1;
    e->held = b->header == 4 ? number_at(at) & 0xFFFFFF : number_at(at + 1);
    if (at[0] == 'a')
        set_text(e, 0, at + b->header, e->held);
}

void book_read(struct book *b, const uint8_t *image, size_t image_len)
{
    uint32_t data = number_at(image + 48);

    memset(b, 0, sizeof *b);
    b->key_size = number_at(image + 12);
    b->slots = number_at(image + 16);
    b->header = image[5] == 2 ? 5 : 4;
    b->longest = image[5] == 2 ? LONGEST_OF_2 : LONGEST;
    b->used = number_at(image + 52) - data;
    b->room = image_len - data;
    for (uint32_t i = 0; i < b->slots; i++) {
        const uint8_t *slot = image + 2048 + i * (size_t)(b->key_size + 4);
        uint32_t offset = number_at(slot + b->key_size);
        struct entry *e;

        if (!name_fits(b, slot, b->key_size))
            continue;
        e = new_entry(b, slot);
        if (offset != 0)
            read_message(b, e, image + offset);
    }
}

/* ---- calls ---- */

uint32_t book_add(struct book *b, const uint8_t *key, size_t key_len,
                  const uint8_t *data, size_t data_len, uint32_t mode)
{
    struct entry *e;

    if (!name_fits(b, key, key_len))
        return 7;
    if (mode != 1 && mode != 2 && mode != 3 && mode != 4)
        return 8;
    e = find(b, key);
    if (e == NULL && mode == 4)
        return 14;
    if (e == NULL)
        return add_new(b, key, data, data_len, mode);
    if (mode == 1)
        return 9;
    if (mode == 2)
        return replace_text(b, e, data, data_len);
    if (mode == 4) {
        e->noted = 0;
        e->length = 0;
        return 0;
    }
    if (data_len == 0)
        return 0;
    return set_in_new_space(b, e, e->length, data, data_len);
}

uint32_t book_delete(struct book *b, const uint8_t *key, size_t key_len)
{
    struct entry *e;

    if (!name_fits(b, key, key_len))
        return 7;
    e = find(b, key);
    if (e == NULL)
        return 14;
    free(e->text);
    *e = b->entries[--b->count];
    return 0;
}

uint32_t book_lookup(const struct book *b, const uint8_t *key,
                     size_t key_len, const struct entry **entry)
{
    *entry = NULL;
    if (!name_fits(b, key, key_len))
        return 7;
    *entry = find(b, key);
    return *entry == NULL ? 14 : 0;
}

uint32_t book_count(const struct book *b)
{
    return b->count;
}

/* ---- readings by column ---- */

/* Question 19, but for the lent slice. */
static int has_columns(uint32_t width, size_t size)
{
    return 1 <= width && width <= 64 && size % width == 0;
}

/* Column after column; what is too long for the file is not made. */
uint32_t book_store_columns(struct book *b, const uint8_t *key, size_t key_len,
                            const uint8_t *records, size_t records_len,
                            uint32_t width)
{
    size_t count;

    if (!name_fits(b, key, key_len))
        return 7;
    if (!has_columns(width, records_len))
        return 19;
    if (records_len > b->room)
        return book_add(b, key, key_len, NULL, 1 + records_len, 2);
    count = records_len / width;
    b->scratch = must(realloc(b->scratch, 1 + records_len));
    b->scratch[0] = (uint8_t)width;
    for (size_t k = 0; k < records_len; k++)
        b->scratch[1 + k] = records[k % count * width + k / count];
    return book_add(b, key, key_len, b->scratch, 1 + records_len, 2);
}

uint32_t book_read_columns(struct book *b, const uint8_t *key, size_t key_len,
                           size_t room, const uint8_t **records,
                           uint32_t *bytes)
{
    const struct entry *e;
    uint32_t answer = book_lookup(b, key, key_len, &e);
    uint32_t width, size, count;

    *records = NULL;
    *bytes = 0;
    if (answer != 0)
        return answer;
    if (e->length == 0)
        return 19;
    width = e->text[0];
    size = e->length - 1;
    if (!has_columns(width, size) || size > room)
        return 19;
    count = size / width;
    b->scratch = must(realloc(b->scratch, 1 + (size_t)size));
    for (uint32_t k = 0; k < size; k++)
        b->scratch[k] = e->text[1 + k % width * count + k / width];
    *records = b->scratch;
    *bytes = size;
    return 0;
}

/* ---- names in ranges ---- */

static int lies_in(const uint8_t *name, const uint8_t *lowest,
                   const uint8_t *highest, uint32_t size)
{
    while (size-- > 0)
        if (name[size] < lowest[size] || highest[size] < name[size])
            return 0;
    return 1;
}

uint32_t book_select(const struct book *b, const uint8_t *lowest,
                     size_t lowest_len, const uint8_t *highest,
                     size_t highest_len, uint32_t slots, size_t list_len,
                     uint32_t *found)
{
    *found = 0;
    if (lowest_len != b->key_size || highest_len != b->key_size ||
        !lies_in(lowest, lowest, highest, b->key_size))
        return 22;
    if (list_len < 4 * (uint64_t)slots)
        return 16;
    for (uint32_t i = 0; i < b->count; i++)
        *found += (uint32_t)lies_in(b->entries[i].name, lowest, highest,
                                    b->key_size);
    return 0;
}

/* ---- epochs ---- */

uint32_t book_at_epoch(const struct book *b, const uint8_t *name,
                       size_t name_len, uint32_t epoch, uint32_t *shown,
                       const struct entry **entry)
{
    *shown = 0;
    *entry = NULL;
    if (b->key_size < 5)
        return 23;
    if (name_len != b->key_size - 4)
        return 7;
    for (uint32_t i = 0; i < b->count; i++) {
        const struct entry *e = &b->entries[i];
        uint32_t its = number_at(e->name + name_len);

        if (memcmp(e->name, name, name_len) != 0 || its > epoch)
            continue;
        if (*entry != NULL && its < *shown)
            continue;
        *shown = its;
        *entry = e;
    }
    return *entry == NULL ? 14 : 0;
}

/* Held becomes the text's length, only a text that is not none has an offset,
 * and U is what these take. */
void book_compact(struct book *b)
{
    b->used = 0;
    for (uint32_t i = 0; i < b->count; i++) {
        struct entry *e = &b->entries[i];

        e->placed = e->noted;
        e->held = e->noted ? e->length : 0;
        if (e->noted)
            b->used += b->header + (uint64_t)e->held;
    }
}

/* The step of compaction of a book that goes on in another image. */
static uint32_t compacted(struct book *b)
{
    book_compact(b);
    return 0;
}

/* Questions 20 and 13 of a target of that length, for headers of that size and
 * texts up to the longest. */
static uint32_t ask_target(const struct book *b, size_t target_len,
                           uint32_t header, uint32_t longest)
{
    uint64_t end = data_offset(b);

    for (uint32_t i = 0; i < b->count; i++) {
        const struct entry *e = &b->entries[i];

        if (e->noted && e->length > longest)
            return 20;
        end += e->noted ? header + (uint64_t)e->length : 0;
    }
    return end > target_len ? 13 : 0;
}

uint32_t book_convert(struct book *b, size_t target_len)
{
    int narrows = b->header == 5;
    uint32_t header = narrows ? 4 : 5;
    uint32_t longest = narrows ? LONGEST : LONGEST_OF_2;
    uint32_t answer;

    if (target_len % 4096 != 0 || target_len < 4096 ||
        target_len > 1073741824u)
        return 1;
    answer = ask_target(b, target_len, header, longest);
    if (answer != 0)
        return answer;
    b->header = header;
    b->longest = longest;
    b->room = target_len - data_offset(b);
    return compacted(b);
}

/* ---- growth ---- */

/* Is this an image of the book's major version without a point or a message:
 * 1, 5 and 6, C = 0 and no slot taken, X = D? Its terms go into t. */
static int is_empty_image(const struct book *b, const uint8_t *image,
                          size_t length, struct book *t)
{
    const uint8_t *byte;

    if (length % 4096 != 0 || length < 4096 || length > 1073741824u)
        return 0;
    if (memcmp(image, b->header == 5 ? "BHTFv\2\0" : "BHTFv\1\0", 7) != 0 ||
        image[7] > (b->header == 5 ? 0 : 2))
        return 0;
    t->key_size = number_at(image + 12);
    t->slots = number_at(image + 16);
    if (t->key_size - 1u > 31 || t->slots - 1u > 1048575 ||
        number_at(image + 20) != 0 || number_at(image + 36) > 255 ||
        number_at(image + 32) > number_at(image + 36) ||
        number_at(image + 40) != 512 || number_at(image + 44) != 2048)
        return 0;
    t->room = length - data_offset(t);
    if (data_offset(t) > length || number_at(image + 48) != data_offset(t) ||
        number_at(image + 52) != data_offset(t))
        return 0;
    byte = image + 2048;
    for (uint32_t i = 0; i < t->slots; i++, byte += 4)
        for (uint32_t k = 0; k < t->key_size; k++)
            if (*byte++ != 0)
                return 0;
    return 1;
}

uint32_t book_grow(struct book *b, const uint8_t *second, size_t length)
{
    struct book terms;
    uint64_t needed = 0;

    if (!is_empty_image(b, second, length, &terms))
        return 21;
    for (uint32_t i = 0; i < b->count; i++)
        if (b->entries[i].noted)
            needed += b->header + (uint64_t)b->entries[i].length;
    if (terms.key_size != b->key_size || terms.slots <= b->slots ||
        terms.room < needed)
        return 21;
    b->slots = terms.slots;
    b->room = terms.room;
    return compacted(b);
}

uint32_t book_ask_listed(size_t image_len, size_t work_len, size_t list_len)
{
    return work_len < image_len || list_len < 8 ? 16 : 0;
}

uint32_t book_ask_journaled(size_t image_len, size_t work_len)
{
    return work_len < image_len ? 16 : 0;
}
