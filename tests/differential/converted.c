/* The converter: what it is lent, what it must leave by its definition, and the
 * way back. */
#include "parts.h"

#include <string.h>

#define MOST_SLOTS 600u /* of larger tables plain C alone is compared */
#define MOST_LENGTH 1000000u /* of longer images no way back */

/* ---- an image's points ---- */

static uint32_t slot_at(const uint8_t *image, uint32_t slot)
{
    return 2048 + slot * (get32(image + 12) + 4);
}

static int is_taken(const uint8_t *image, uint32_t slot)
{
    const uint8_t *at = image + slot_at(image, slot);

    for (uint32_t i = 0; i < get32(image + 12); i++)
        if (at[i] != 0)
            return 1;
    return 0;
}

static uint32_t offset_in(const uint8_t *image, uint32_t slot)
{
    return get32(image + slot_at(image, slot) + get32(image + 12));
}

/* Has the slot an active message? */
static int is_noted(const uint8_t *image, uint32_t slot)
{
    uint32_t at = is_taken(image, slot) ? offset_in(image, slot) : 0;

    return at != 0 && image[at] == 'a';
}

/* Where a target's messages end of those that begin below that place. */
static uint64_t end_below(const uint8_t *image, uint32_t place)
{
    uint32_t header = header_size_of(image) == 5 ? 4 : 5;
    uint64_t end = get32(image + 48);

    for (uint32_t i = 0; i < get32(image + 16); i++)
        if (is_noted(image, i) && offset_in(image, i) < place)
            end += header + (uint64_t)length_in(image, offset_in(image, i));
    return end;
}

/* ---- what the call is lent ---- */

/* May its slots be gone through: is it an image, and sound? */
static int is_sound(void)
{
    struct call check = list.now;
    struct answer a;

    if (check.image_len > lent.length)
        return 0;
    check.kind = CHECK;
    check.form = PLAIN;
    a = perform_plain(lent.before, &check);
    return a.number == 0 && a.first == 0;
}

static size_t page_above(uint64_t end)
{
    return (size_t)((end + PAGE - 1) / PAGE * PAGE);
}

/* Around what the messages need, or as long as the source, or no image. */
static size_t choose_target_length(void)
{
    size_t same = list.now.image_len <= lent.length ? list.now.image_len
                                                    : lent.length;
    size_t wrong[] = { 0, 1, 4095, 4097, same + 1, same + 4095, same / 2 + 1,
                       (size_t)GIB + PAGE };
    size_t needed = is_sound() ? page_above(end_below(lent.before, ~0u)) : same;
    uint32_t style = below(32);

    if (style == 0)
        return widen(wrong[below(8)]);
    if (style < 8)
        return needed;
    if (style < 10)
        return needed > PAGE ? needed - PAGE : PAGE;
    if (style < 12)
        return PAGE * (size_t)(1 + below((uint32_t)(needed / PAGE) + 1));
    if (style < 20)
        return same + PAGE * (size_t)below(4);
    return widen(page_above(same));
}

/* Its own bytes do not matter: plain C finds other ones behind the first. */
void lend_target(void)
{
    size_t seen;

    if (list.now.target_len == 0)
        list.now.target_len = choose_target_length();
    if (run.old_limits && list.now.target_len > MIB16 &&
        list.now.target_len <= GIB)
        list.now.target_len = MIB16;
    lend_slice(&target, list.now.target_len);
    fill_slice(&target);
    seen = seen_of(&target);
    if (target.length <= 5 * (size_t)MIB16)
        memset(target.library + seen, 0xEE, target.length - seen);
}

/* ---- by the definition ---- */

static int is_zero(size_t from, size_t to)
{
    while (from < to)
        if (target.library[from++] != 0)
            return 0;
    return 1;
}

static void compare_header(const uint8_t *source, uint64_t end)
{
    const uint8_t *t = target.library;
    uint32_t data = get32(source + 48);
    const char *version = header_size_of(source) == 5 ? "\1\0\2" : "\2\0\0";
    uint32_t scramble = 4 * (get32(source + 36) - get32(source + 32) + 1);
    uint32_t page = end == data ? 0xFFFFFFFFu
                                : (uint32_t)(end - data - 1) / PAGE;

    if (memcmp(t, source, 5) != 0 || memcmp(t + 5, version, 3) != 0 ||
        memcmp(t + 8, source + 8, 44) != 0)
        fail("the target's header is not the source's in the other version");
    if (get32(t + 52) != end || get32(t + 56) != page)
        fail("the target's X or M is not behind its messages");
    if (memcmp(t + 512, source + 512, scramble) != 0)
        fail("the target has another scramble");
    if (!is_zero(60, 512) || !is_zero(512 + scramble, 2048))
        fail("bytes about the target's scramble are not zero");
}

static void compare_slot(const uint8_t *source, uint32_t slot)
{
    const uint8_t *t = target.library;
    uint32_t at = slot_at(source, slot), key_size = get32(source + 12);
    uint32_t old = offset_in(source, slot), new = offset_in(t, slot);
    uint32_t length;

    if (!is_taken(source, slot) && !is_zero(at, at + key_size + 4))
        fail("an empty slot of the target is not zero");
    if (memcmp(t + at, source + at, key_size) != 0)
        fail("a point's slot has another key in the target");
    if (!is_noted(source, slot)) {
        if (new != 0)
            fail("a point without a message has an offset in the target");
        return;
    }
    length = length_in(source, old);
    if (new != end_below(source, old))
        fail("a message is not behind those that were below it");
    if (t[new] != 'a' || length_in(t, new) != length ||
        memcmp(t + new + header_size_of(t),
               source + old + header_size_of(source), length) != 0)
        fail("a message is another one in the target");
}

static void compare_by_definition(const uint8_t *source)
{
    uint32_t slots = get32(source + 16);
    uint64_t end = end_below(source, ~0u);

    if (end > target.length)
        fail("a target is taken that 13 refuses");
    compare_header(source, end);
    for (uint32_t i = 0; i < slots; i++)
        compare_slot(source, i);
    if (!is_zero(slot_at(source, slots), get32(source + 48)))
        fail("bytes behind the target's table are not zero");
    if (!is_zero((size_t)end, target.length))
        fail("bytes behind the target's messages are not zero");
}

/* ---- there and back ---- */

static void zero(uint8_t *from, const uint8_t *to)
{
    memset(from, 0, (size_t)(to - from));
}

/* Compacted, the bytes that no rule names zero; M by its formula. */
static void clean(uint8_t *image, size_t length)
{
    struct call compact = { .kind = COMPACT, .image_len = length };
    uint32_t slots, data, end;

    perform_plain(image, &compact);
    slots = get32(image + 16);
    data = get32(image + 48);
    end = (get32(image + 52) - data - 1) / PAGE;
    if (header_size_of(image) == 4)
        image[7] = 2;
    for (int i = 0; i < 4; i++)
        image[56 + i] = get32(image + 52) == data
                            ? 0xFF : (uint8_t)(end >> (24 - 8 * i));
    zero(image + 60, image + 512);
    zero(image + 512 + 4 * (get32(image + 36) - get32(image + 32) + 1),
         image + 2048);
    for (uint32_t i = 0; i < slots; i++)
        if (!is_taken(image, i))
            zero(image + slot_at(image, i), image + slot_at(image, i + 1));
    zero(image + slot_at(image, slots), image + data);
}

/* Into a slice as long as the source was. */
static void convert_back(size_t length)
{
    lend_slice(&work, length);
    fill_slice(&work);
    if (subject.convert(target.library, target.length, work.library,
                        length) != 0)
        fail("the way back is refused");
    memcpy(lent.scratch, lent.before, length);
    clean(lent.scratch, length);
    if (memcmp(work.library, lent.scratch, length) != 0)
        fail("there and back is not compaction with zeros around");
}

void compare_converted(const struct call *c, const struct answer *a)
{
    compare_slice("the target", &target,
                  a->number == 0 ? c->target_len : 0);
    if (a->number != 0)
        return;
    if (memcmp(target.library, target.plain, target.length) != 0)
        fail("the target is not plain C's");
    if (get32(lent.before + 16) <= MOST_SLOTS)
        compare_by_definition(lent.before);
    if (c->image_len <= MOST_LENGTH)
        convert_back(c->image_len);
}

void go_on_in_target(void)
{
    set_length((uint32_t)target.length);
    memcpy(lent.library, target.library, target.length);
    share_image();
}

/* ---- steps ---- */

void step_convert(void)
{
    step_plain(CONVERT);
}

void convert_list(void)
{
    new_call(CONVERT);
    list.now.target_len = lent.length;
    run_call();
}

/* Stores a text so that the target's last page is filled to its last byte, or
 * one short of it, or one over; the target ends with that page. */
void step_convert_to_brim(void)
{
    uint32_t header = header_size() == 5 ? 4 : 5;
    uint64_t end;
    size_t brim;

    new_call(CONVERT);
    if (!is_sound())
        return;
    end = end_below(lent.before, ~0u);
    brim = page_above(end + header + 1);
    new_call(ADD);
    choose_key();
    lend_data((size_t)(brim - end - header - 1 + below(3)));
    list.now.mode = 1;
    run_call();
    new_call(CONVERT);
    list.now.target_len = brim;
    run_call();
}
