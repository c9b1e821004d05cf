/* A point into an image, with a text, which may be empty, or with none.
 *
 * The library enters a name without a text where nothing is appended to it:
 * empty data is a text in its other modes. */
#include "put_point.h"

#include "long_work.h"

#include "bhtf.h"
#include "complain.h"
#include "space_used.h"

/* The file layer does not tell how many slots a search read: a lookup's is the
 * same search. */
static uint32_t put(struct target to, const struct buffer *key,
                    const struct piece *text, uint32_t mode,
                    uint32_t *slots_read)
{
    const uint8_t *bytes = text == NULL ? NULL : text->bytes;
    size_t size = text == NULL ? 0 : text->length;
    uint32_t offset, length;

    if (to.file == NULL)
        return bhtf_add_slots(to.image, to.length, key->bytes, key->length,
                              bytes, size, mode, slots_read);
    bhtf_lookup_slots(to.image, to.length, key->bytes, key->length, &offset,
                      &length, slots_read);
    return bhtf_file_add(to.file, key->bytes, key->length, bytes, size, mode);
}

/* Refuses what mode BHTF_NEW refuses before it looks at a text. */
static uint32_t ask_new(struct target to, const struct buffer *key,
                        uint32_t *slots_read)
{
    uint32_t offset, length;
    uint32_t number = bhtf_lookup_slots(to.image, to.length, key->bytes,
                                        key->length, &offset, &length,
                                        slots_read);

    if (number == BHTF_ACCEPTED || number == BHTF_DAMAGED)
        return BHTF_PRESENT;
    return number;
}

uint32_t store(struct target to, const struct buffer *key,
               const struct piece *text, uint32_t mode, uint32_t *slots_read)
{
    uint32_t number = BHTF_ABSENT;

    if (text != NULL || mode == BHTF_WITHDRAW)
        return put(to, key, text, mode, slots_read);
    if (mode == BHTF_REPLACE)
        number = put(to, key, NULL, BHTF_WITHDRAW, slots_read);
    else if (mode == BHTF_NEW)
        number = ask_new(to, key, slots_read);
    return number == BHTF_ABSENT
        ? put(to, key, NULL, BHTF_APPEND, slots_read) : number;
}

/* The bytes of new space that the text asks for. */
static uint64_t space_for(struct target to, const struct buffer *key,
                          const struct piece *text, uint32_t mode)
{
    uint32_t offset = 0, kept = 0;

    if (mode == BHTF_APPEND)
        bhtf_lookup(to.image, to.length, key->bytes, key->length, &offset,
                    &kept);
    return bhtf_message_header(to.image, to.length) + (uint64_t)kept +
           (text == NULL ? 0 : text->length);
}

uint64_t room_by_compaction(struct target to, const struct buffer *key,
                            const struct piece *text, uint32_t mode)
{
    const struct header h = header_read(to.image);
    struct buffer view = { NULL, 0, 0 };
    uint32_t verdict, slot;
    uint64_t dead;

    view.bytes = to.image;
    view.length = to.length;
    /* The writer's lock is held, and this is advice only. */
    if (slots_displaced(to.image, to.length, &h) > SLOTS_BEARABLE)
        return 0;
    bhtf_check(to.image, to.length, &verdict, &slot);
    if (verdict != BHTF_SOUND)
        return 0;
    dead = space_measure(&view, &h).dead;
    return to.length - h.next + dead >= space_for(to, key, text, mode)
        ? dead : 0;
}
