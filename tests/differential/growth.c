/* Growth: its start, with second images of all sorts, the calls on the pair, and
 * its end. */
#include "parts.h"

#include <string.h>

#define KEY_MOST 32u

/* ---- the second image ---- */

static uint32_t number_in(const uint8_t *image, uint32_t at)
{
    return get32(image + at);
}

/* Is it an image? */
static int is_opened(const uint8_t *image, size_t length)
{
    uint32_t count;

    return plain.count(image, length, &count) == 0;
}

/* An active message that passes 11, header and all, or 0. */
static uint64_t active_at(const uint8_t *image, uint32_t at)
{
    uint32_t header = header_size_of(image), next = number_in(image, 52);
    uint64_t size;

    if (at < number_in(image, 48) || (uint64_t)at + header > next)
        return 0;
    size = header + (uint64_t)length_in(image, at);
    return image[at] == 'a' && at + size <= next ? size : 0;
}

uint64_t active_in(const uint8_t *image)
{
    uint32_t size = number_in(image, 12), slots = number_in(image, 16);
    uint64_t sum = 0;

    for (uint32_t i = 0; i < slots; i++) {
        const uint8_t *key = image + 2048 + i * (size_t)(size + 4);
        int taken = 0;

        for (uint32_t k = 0; k < size; k++)
            taken |= key[k] != 0;
        if (taken)
            sum += active_at(image, get32(key + size));
    }
    return sum;
}

/* What the old image's points need in the new one. */
static uint64_t needed_space(void)
{
    return is_opened(lent.plain, lent.length) ? active_in(lent.plain) : 0;
}

static uint32_t page_above(uint64_t size)
{
    return (uint32_t)((size + PAGE - 1) / PAGE) * PAGE;
}

/* More slots, mostly a few; not more than create takes. */
static uint32_t choose_larger(void)
{
    uint32_t most = run.old_limits ? OLD_SLOTS : SLOTS_MAX;
    uint32_t n = list.slots + 1 + below(one_in(3) ? 30 : 8);

    if (one_in(24))
        n = list.slots - (list.slots > 1 ? below(2) : 0);
    return n > most ? most : n;
}

static uint32_t choose_other_key_size(void)
{
    return list.key_size < KEY_MOST && one_in(2) ? list.key_size + 1
           : list.key_size > 1                   ? list.key_size - 1
                                                 : 2;
}

static void put32(uint8_t *at, uint32_t value)
{
    for (int i = 0; i < 4; i++)
        at[i] = (uint8_t)(value >> (24 - 8 * i));
}

/* What a sound image without points may have besides: any hash, any bytes where
 * no point and no message is, an earlier version. */
static void dress(uint8_t *image, uint32_t length)
{
    uint32_t data = number_in(image, 48), slots = number_in(image, 16);
    uint32_t key_size = number_in(image, 12);

    if (one_in(2))
        put32(image + 8, random32());
    if (one_in(3))
        put32(image + 24, random32());
    if (one_in(3))
        put32(image + 56, random32());
    if (one_in(3) && image[5] == 1)
        image[7] = (uint8_t)below(3);
    for (uint32_t i = below(8); i > 0; i--)
        put32(image + 2048 + key_size +
                  below(slots) * (size_t)(key_size + 4), random32());
    for (uint32_t i = below(40); i > 0 && length > data; i--)
        image[data + below(length - data)] = (uint8_t)random32();
    for (uint32_t i = below(20); i > 0; i--)
        image[512 + below(380)] = (uint8_t)random32();
}

/* One thing that a start refuses. */
static void spoil(uint8_t *image)
{
    uint32_t data = number_in(image, 48), key_size = number_in(image, 12);
    uint32_t slot = below(number_in(image, 16));
    uint32_t style = below(10);

    if (style == 0)
        put32(image + 20, 1);
    else if (style == 1)
        put32(image + 52, data + 1 + below(4));
    else if (style == 2)
        image[2048 + slot * (size_t)(key_size + 4)] = 1;
    else if (style == 3)
        image[2048 + slot * (size_t)(key_size + 4)] = 1, put32(image + 20, 1);
    else if (style == 4)
        image[5] ^= 3, image[7] = 0;
    else if (style == 5)
        image[7] = 3;
    else if (style == 6)
        image[below(5)] ^= (uint8_t)(1u << below(8));
    else
        image[12 + below(44)] ^= (uint8_t)(1u << below(8));
}

/* In target: an empty image with room for so much, or a page less or more. */
static void make_second(uint64_t room)
{
    uint32_t k = one_in(24) ? choose_other_key_size() : list.key_size;
    uint32_t n = choose_larger();
    uint32_t data = data_offset(k, n);
    uint32_t length = data + page_above(room) + PAGE * below(one_in(2) ? 3 : 1);

    if (one_in(12) && length > data)
        length -= PAGE;
    if (length < PAGE)
        length = PAGE;
    lend_slice(&target, length);
    /* The rest goes by its header, which is there if create took K and N. */
    if (plain.create(target.library, length, k, n, random32()) == 0) {
        if (header_size() == 5)
            target.library[5] = 2, target.library[7] = 0;
        if (one_in(2))
            dress(target.library, length);
        if (one_in(8))
            spoil(target.library);
    }
    memcpy(target.plain, target.library, length);
}

/* ---- the start ---- */

void make_lent_old(void)
{
    set_old_length(lent.length);
    memcpy(older.library, lent.library, lent.length);
    memcpy(older.plain, lent.library, lent.length);
    memcpy(older.before, lent.library, lent.length);
}

/* No point is left in the old image. */
static int is_finished(void)
{
    uint32_t slot, key;

    return plain.walk(older.plain, older.length, 0, &slot, &key) == 0 &&
           key == 0;
}

void go_on_in_new(void)
{
    if (is_finished())
        list.growing = 0;
}

static void begin_growth(void)
{
    make_lent_old();
    set_length((uint32_t)target.length);
    memcpy(lent.library, target.library, target.length);
    share_image();
    list.slots = field(16);
    list.growing = 1;
    choose_more_names();
    go_on_in_new();
}

/* Lengths that are no image's. */
static size_t wrong_length(size_t right)
{
    size_t lengths[] = { 0, 1, 59, 4095, right - 1, right - 4095,
                         right / 2 + 1 };

    return lengths[below(7)];
}

static void compare_start(uint32_t number, uint32_t reference)
{
    const struct call *c = &list.now;

    if (number != reference)
        fail_number("answer", "library", number, "plain", reference);
    if (memcmp(lent.library, lent.before, lent.length) != 0)
        fail("a start changed the old image");
    if (target.length > 0 &&
        memcmp(target.library, target.plain, target.length) != 0)
        fail("a start changed the second image");
    if (!guards_hold(lent.library, lent.length, lent.shift) ||
        !guards_hold(target.library, target.length, target.shift))
        fail("bytes outside the pair changed");
    if (list.with_book && c->old_len != lent.length)
        same_as_book("answer", number, 1);
    else if (list.with_book)
        same_as_book("answer", number,
                     book_grow(&list.book, target.plain, c->image_len));
}

/* With the lent image and target. */
static void start(void)
{
    struct call *c = &list.now;
    uint32_t number;

    run.calls++;
    memset(c, 0, sizeof *c);
    c->kind = START;
    c->old_len = one_in(60) ? wrong_length(lent.length) : lent.length;
    c->image_len = one_in(60) ? wrong_length(target.length) : target.length;
    number = subject.grow(lent.library, c->old_len, target.library,
                          c->image_len);
    compare_start(number, plain.grow(lent.plain, c->old_len, target.plain,
                                     c->image_len));
    seen[START][number < NUMBERS ? number : 0]++;
    if (number == 0)
        begin_growth();
}

/* A text that fills what the old image's points need to a page's last byte, or
 * one short of it, or one over. */
static void fill_to_brim(uint64_t *needed)
{
    uint32_t header = header_size();
    uint64_t brim = page_above(*needed + header + 1);

    new_call(ADD);
    choose_key();
    lend_about((int64_t)brim - (int64_t)*needed - (int64_t)header, 1);
    list.now.mode = 1;
    list.now.form = PLAIN;
    run_call();
    *needed = brim;
}

void step_start(void)
{
    uint64_t needed = needed_space();

    if (lent.length > 2000000)
        return;
    if (one_in(8) && list.with_book)
        fill_to_brim(&needed);
    make_second(needed);
    start();
}

/* ---- calls on the pair ---- */

static void step_change(enum kind kind)
{
    static const uint32_t widths[] = { 1, 2, 3, 8, 64, 0, 65 };
    uint32_t name;

    new_pair_call(kind);
    name = choose_key();
    if (kind != DELETE)
        choose_data(name);
    list.now.mode = choose_mode();
    list.now.width = one_in(3) ? PICK(widths) : 1 + below(4);
    if (kind == STORE && list.now.width > 0 && !one_in(16))
        lend_data(list.now.data_len - list.now.data_len % list.now.width);
    if (run_pair_call().number == 0 && name < NAMES && kind != DELETE)
        list.last_length[name] = (uint32_t)list.now.data_len + (kind == STORE);
}

static void step_read(enum kind kind)
{
    new_pair_call(kind);
    if (kind == AT_EPOCH)
        lend_name();
    else
        choose_key();
    run_pair_call();
}

/* One image or the other has no image's length. */
static void step_wrong(void)
{
    static const enum kind kinds[] = { ADD,   DELETE, STORE,  LOOKUP,
                                       COUNT, READ,   SELECT, AT_EPOCH };

    new_pair_call(kinds[below(8)]);
    choose_key();
    choose_data(NAMES);
    list.now.mode = choose_mode();
    list.now.width = below(66);
    if (below(3) > 0)
        list.now.image_len = wrong_length(lent.length);
    if (below(3) > 0)
        list.now.old_len = wrong_length(older.length);
    run_pair_call();
}

/* Without a book a pair goes on for a while though the old image is empty. */
static void end_growth(void)
{
    if (list.with_book || one_in(4))
        go_on_in_new();
}

void step_pair(void)
{
    uint32_t style = below(100);

    if (style < 46)
        step_change(ADD);
    else if (style < 62)
        step_change(DELETE);
    else if (style < 70)
        step_change(STORE);
    else if (style < 78)
        step_read(LOOKUP);
    else if (style < 82)
        step_read(READ);
    else if (style < 86)
        step_read(COUNT);
    else if (style < 90)
        step_read(SELECT);
    else if (style < 97)
        step_read(AT_EPOCH);
    else
        step_wrong();
    end_growth();
}

/* ---- the end ---- */

static void look_up_in_pair(const uint8_t *name)
{
    new_pair_call(LOOKUP);
    memcpy(lend_key(list.key_size), name, list.key_size);
    run_pair_call();
}

/* Accepted calls that change nothing but move points: after so many, as there
 * are eights of points, none is left. */
static void finish_growth(void)
{
    uint32_t calls = (get32(older.plain + 20) + 7) / 8;

    while (list.growing) {
        if (calls-- == 0)
            fail("growth has not ended");
        new_pair_call(ADD);
        memcpy(lend_key(list.key_size), list.book.entries[0].name,
               list.key_size);
        list.now.mode = 3;
        if (run_pair_call().number != 0)
            fail("appending nothing is refused");
        go_on_in_new();
    }
}

int close_pair(void)
{
    for (uint32_t i = 0; i < list.book.count; i++)
        look_up_in_pair(list.book.entries[i].name);
    for (uint32_t i = 0; i < list.names; i++)
        look_up_in_pair(list.name[i]);
    new_pair_call(COUNT);
    run_pair_call();
    step_read(SELECT);
    step_read(AT_EPOCH);
    if (one_in(2))
        return 0;
    finish_growth();
    return 1;
}
