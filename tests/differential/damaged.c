/* Pairs of images that no start gives: either one damaged, a name in both, a
 * count that is wrong, messages that share bytes, the images exchanged. */
#include "parts.h"

#include <string.h>

static uint32_t slot_at(uint32_t slot)
{
    return 2048 + slot * (list.key_size + 4);
}

/* N, or less if the image has no room for so many. */
static uint32_t slots_in(void)
{
    uint32_t most = (lent.length - 2048) / (list.key_size + 4);

    return field(16) - 1 < most ? field(16) : 1;
}

/* One of the image's slots, taken if one is found soon. */
static uint32_t some_slot(void)
{
    uint32_t slot = 0;

    for (uint32_t tries = 0; tries < 8; tries++) {
        slot = below(slots_in());
        if (lent.library[slot_at(slot)] != 0)
            break;
    }
    return slot;
}

static uint32_t lowest_slot(void)
{
    uint32_t slot = 0;

    while (slot + 1 < slots_in() && lent.library[slot_at(slot)] == 0)
        slot++;
    return slot;
}

/* The offset of a slot's message. */
static uint32_t offset_at(uint32_t slot)
{
    return slot_at(slot) + list.key_size;
}

static void exchange(void)
{
    struct lent l = lent;

    lent = older;
    older = l;
}

static void wrong_count(void)
{
    uint32_t c = field(20);
    uint32_t counts[] = { 0, c - 1, c + 1, field(16), field(16) - 1, c, 1 };

    poke32(20, PICK(counts));
}

static void wrong_message(void)
{
    static const uint32_t letters[] = { 'x', 'd', 'a', 'd', 0 };
    uint32_t slot = one_in(2) ? lowest_slot() : some_slot();
    uint32_t at = field(offset_at(slot));
    uint32_t room = field(52) - at - header_size();

    if (at < 2048 || at > lent.length - 8)
        return;
    if (one_in(2))
        poke(at, (uint8_t)PICK(letters));
    else
        poke_header(at, lent.library[at], make_length(room % 300));
}

/* Two points on one message, or one in the other's header or text. */
static void share_message(void)
{
    uint32_t from = offset_at(some_slot());
    uint32_t to = offset_at(some_slot());
    uint32_t at = field(from);

    if (at != 0 && one_in(2)) {
        at += below(6);
        if (at + 8 < lent.length && one_in(2))
            poke(at, 'a');
    }
    poke32(to, at);
}

/* A name of the old image in the new one. */
static void name_in_both(void)
{
    uint32_t slot = some_slot();
    uint32_t from;

    exchange();
    from = slot_at(one_in(2) ? lowest_slot() : some_slot());
    exchange();
    for (uint32_t i = 0; i < list.key_size; i++)
        poke(slot_at(slot) + i, older.library[from + i]);
}

/* In the old image two points whose headers overlap: one's letter is the last
 * byte of the other's length. Then more is asked for that point than there is, or
 * just as much, so that the move which comes first decides. */
static void headers_overlap(void)
{
    uint32_t slot = some_slot(), other = some_slot(), header = header_size();
    uint32_t at = field(offset_at(slot)), length = below(20);
    uint64_t room;

    if (slot == other || at < field(48) + header || at + 300 > lent.length)
        return;
    poke_header(at - header + 1, 'a', 'a');
    poke_header(at, 'a', length);
    poke32(offset_at(other), at - header + 1);
    if (field(52) < at + 200)
        poke32(52, at + 200);
    exchange();
    room = active_in(older.library) + field(52) + header + length;
    new_pair_call(ADD);
    memcpy(lend_key(list.key_size), older.library + slot_at(slot),
           list.key_size);
    list.now.mode = 3;
    if (room < lent.length && lent.length - room < MIB16)
        lend_about((int64_t)lent.length - (int64_t)room, 2);
    run_pair_call();
    exchange();
}

static void damage_pair(void)
{
    uint32_t style = below(12);

    if (one_in(2))
        exchange();
    if (style < 3)
        wrong_count();
    else if (style < 6)
        wrong_message();
    else if (style < 8)
        share_message();
    else if (style < 9)
        name_in_both();
    else
        damage();
}

/* Both are images, and the old one has N slots for certain. */
static int is_pair(void)
{
    uint32_t count;

    return plain.grow_count(older.library, older.length, lent.library,
                            lent.length, &count) == 0;
}

/* ---- the two images ---- */

/* Of the same kind as the old one, mostly. */
static void take_kind(void)
{
    if (one_in(30))
        return;
    poke(5, older.library[5] == 2 ? 2 : 1);
    poke(7, older.library[5] == 2 ? 0 : (uint8_t)below(3));
}

/* Created, of the old one's kind or of any, and then some names added. */
static void created_image(int is_old)
{
    uint32_t data = data_offset(list.key_size, list.slots);

    set_length(data + PAGE * (1 + below(3)));
    plain.create(lent.library, lent.length, list.key_size, list.slots,
                 random32());
    share_image();
    if (!is_old)
        take_kind();
    else if (one_in(3))
        poke(5, 2), poke(7, 0);
    for (uint32_t i = below(2 * list.names); i > 0; i--)
        plain.add(lent.library, lent.length, list.name[below(list.names)],
                  list.key_size, data_start + below(1000), below(60),
                  1 + below(3));
    share_image();
}

/* Mostly larger than the old one, of its K. */
static void new_image(void)
{
    uint32_t k = list.key_size;

    list.slots = one_in(8) ? 1 + below(8) : list.slots + 1 + below(12);
    choose_more_names();
    if (one_in(30))
        list.key_size = 1 + below(32);
    if (below(3) > 0) {
        created_image(0);
    } else {
        make_up_image(0);
        take_kind();
    }
    list.key_size = k;
}

/* With more points than one call moves. */
static void old_created_image(void)
{
    list.key_size = choose_key_size();
    list.slots = 6 + below(30);
    choose_names();
    created_image(1);
}

static void old_image(void)
{
    uint32_t style = below(8);

    if (style < 3)
        made_up_image();
    else if (style < 4)
        ring_image();
    else if (style < 5)
        grown_image();
    else
        old_created_image();
}

void list_on_pair(void)
{
    uint32_t calls = 4 + below(30);

    list.with_book = 0;
    old_image();
    make_lent_old();
    new_image();
    list.what = "pair";
    list.growing = 1;
    for (uint32_t i = below(4); i > 0; i--)
        damage_pair();
    while (calls-- > 0 && list.growing) {
        if (one_in(10))
            damage_pair();
        if (one_in(12) && is_pair()) {
            exchange();
            headers_overlap();
            exchange();
        }
        if (one_in(12)) {
            new_pair_call(START);
            run_pair_call();
        }
        step_pair();
    }
    list.growing = 0;
}
