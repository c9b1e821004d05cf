/* Images in which points share bytes, or nearly: all else about them is right,
 * but for a damage now and then. */
#include "parts.h"

#include <string.h>

#define BLOCKS 64u

/* Messages, in the order they were laid out. */
static struct block {
    uint32_t at;
    uint32_t length;
} block[BLOCKS];

static uint32_t blocks;

static uint32_t end_of(const struct block *b)
{
    return b->at + header_size() + b->length;
}

/* ---- laying out ---- */

/* A length; in a long image some end at, or a byte beside, a power of two. */
static uint32_t block_length(uint32_t at)
{
    uint32_t data = field(48);
    uint32_t room = lent.length - at;
    uint32_t header = header_size();
    uint32_t length = below(one_in(8) ? 300 : 24);

    if (one_in(3) && room > 20000) {
        uint32_t step = 1u << (12 + below(11));
        uint32_t end = data + ((at - data) / step + 1) * step + below(3) - 1;

        length = end > at + header ? end - at - header : length;
    }
    return room < header ? 0 : length > room - header ? room - header : length;
}

/* Its header in an earlier one's text; ends inside, with it, a byte behind, or
 * anywhere. */
static struct block block_inside(const struct block *outer)
{
    uint32_t header = header_size();
    struct block b = { outer->at + header + below(outer->length - header), 0 };
    uint32_t rest = end_of(outer) - b.at - header;
    uint32_t lengths[] = { 0, 1, rest, rest + 1, 1 + below(rest + 1),
                           block_length(b.at) };

    b.length = PICK(lengths);
    return b;
}

/* Behind the last one that was laid out so: touching it, mostly, or with a gap,
 * or with the header's first byte on its last. */
static struct block block_behind(uint32_t *at, int meeting)
{
    uint32_t start = *at + (one_in(6) ? below(8) : 0);
    struct block b = { meeting ? *at - 1 : start, 0 };

    b.length = block_length(b.at);
    *at = end_of(&b);
    return b;
}

/* One in rare shares bytes with an earlier one; none if rare is 0. */
static struct block next_block(uint32_t *at, uint32_t rare)
{
    int meeting = blocks > 0 && rare > 0 && one_in(rare);
    const struct block *other = &block[meeting ? below(blocks) : 0];
    uint32_t style = below(4);

    if (meeting && style == 0)
        return *other;
    if (meeting && style < 3 && other->length > header_size())
        return block_inside(other);
    return block_behind(at, meeting);
}

static void lay_out(uint32_t wanted, uint32_t rare)
{
    uint32_t at = field(48);
    uint32_t header = header_size();

    for (blocks = 0; blocks < wanted && at + header <= lent.length;
         blocks++) {
        struct block b = next_block(&at, rare);

        if (end_of(&b) > lent.length)
            break;
        block[blocks] = b;
        poke_header(b.at, one_in(3) ? 'd' : 'a', b.length);
    }
}

static void set_end(void)
{
    uint32_t end = field(48);

    for (uint32_t i = 0; i < blocks; i++)
        if (end_of(&block[i]) > end)
            end = end_of(&block[i]);
    if (one_in(4) && end < lent.length)
        end += below(lent.length - end + 1);
    poke32(52, end);
}

/* As laid out, the other way round, or mixed. */
static void mix_blocks(void)
{
    uint32_t style = below(4);

    for (uint32_t i = 0; i < blocks && style > 0; i++) {
        uint32_t j = style > 1 ? below(blocks) : blocks - 1 - i;
        struct block b = block[i];

        if (style == 1 && j <= i)
            break;
        block[i] = block[j];
        block[j] = b;
    }
}

/* ---- slots ---- */

static uint32_t slot_at(uint32_t slot)
{
    return 2048 + slot * (list.key_size + 4);
}

static int is_taken(uint32_t slot)
{
    for (uint32_t i = 0; i < list.key_size; i++)
        if (lent.library[slot_at(slot) + i] != 0)
            return 1;
    return 0;
}

/* Each taken slot gets a message, but for a few; C is their number. */
static void hand_out(void)
{
    uint32_t given = 0, taken = 0;

    for (uint32_t i = 0; i < list.slots; i++) {
        int gets = is_taken(i) && given < blocks && !one_in(10);

        poke32(slot_at(i) + list.key_size, gets ? block[given++].at : 0);
        taken += (uint32_t)is_taken(i);
    }
    poke32(20, taken);
}

/* What fails for another reason than search, in one slot or in the count. */
static void damage_otherwise(void)
{
    uint32_t at = slot_at(below(list.slots)) + list.key_size;
    uint32_t offsets[] = { field(48) - 1, field(52) - 4, field(52) - 5,
                           random32() };
    uint32_t style = below(3);

    if (style == 0)
        poke32(20, below(list.slots + 1));
    else if (style == 1)
        poke32(at, PICK(offsets));
    else if (blocks > 0)
        poke(block[below(blocks)].at, 'b');
}

/* ---- the definition, pair by pair ---- */

static uint32_t offset_in(uint32_t slot)
{
    return is_taken(slot) ? field(slot_at(slot) + list.key_size) : 0;
}

/* Does the slot's message pass question 11? */
static int is_whole(uint32_t slot)
{
    uint32_t at = offset_in(slot);
    uint32_t next = field(52);
    uint32_t header = header_size();

    if (at == 0)
        return 1;
    if (at < field(48) || at >= next || next - at < header)
        return 0;
    return (lent.library[at] == 'a' || lent.library[at] == 'd') &&
           length_in(lent.library, at) <= next - at - header;
}

/* Of whole messages: does the slot's share a byte with a lower slot's? */
static int meets_lower(uint32_t slot)
{
    struct block b = { offset_in(slot), 0 };

    if (b.at == 0)
        return 0;
    b.length = length_in(lent.library, b.at);
    for (uint32_t i = 0; i < slot; i++) {
        struct block lower = { offset_in(i), 0 };

        if (lower.at == 0)
            continue;
        lower.length = length_in(lent.library, lower.at);
        if (lower.at < end_of(&b) && b.at < end_of(&lower))
            return 1;
    }
    return 0;
}

/* The lowest slot that fails, or N, where every search ends well. */
static uint32_t first_by_pairs(void)
{
    uint32_t slot = 0;

    while (slot < list.slots && is_whole(slot) && !meets_lower(slot))
        slot++;
    return slot;
}

/* ---- the list ---- */

static void grow_table(void)
{
    uint32_t k = choose_key_size();
    uint32_t n = 1 + below(one_in(4) ? 60 : 12);
    uint32_t pages = one_in(8) ? 5 + below(10) : 1 + below(3);
    uint32_t data = data_offset(k, n);

    list.what = "spliced image";
    list.key_size = k;
    list.slots = n;
    choose_names();
    set_length(one_in(40) ? data + PAGE * 256 * (1 + below(15))
                          : data + PAGE * pages);
    old_content();
    create(k, n);
    for (uint32_t i = 0; i < list.names; i++) {
        new_call(ADD);
        memcpy(lend_key(k), list.name[i], k);
        list.now.mode = 3;
        run_call();
    }
    if (one_in(3))
        convert_list();
}

static void splice_and_check(void)
{
    static const uint32_t rates[] = { 0, 30, 12, 6, 3, 2 };
    uint32_t failing;
    struct answer a;

    lay_out(one_in(4) ? below(4) : below(BLOCKS + 1), PICK(rates));
    set_end();
    mix_blocks();
    hand_out();
    if (one_in(4))
        damage_otherwise();
    failing = first_by_pairs();
    new_call(CHECK);
    a = run_call();
    if (a.number != 0 || (a.first == 1) != (failing < list.slots))
        fail("the check's word, pair by pair");
    if (a.first == 1 && a.second != failing)
        fail_number("failing slot", "library", a.second, "pairs", failing);
    if (one_in(2))
        step_compact();
    if (one_in(4))
        step_convert();
}

/* A key that its search may not find any more. */
static void damage_key(void)
{
    uint32_t at = slot_at(below(list.slots)) + below(list.key_size);

    poke(at, lent.library[at] ^ (uint8_t)(1u << below(8)));
    step_plain(CHECK);
}

void list_on_splice(void)
{
    static const uint8_t weights[] = { 0, 40, 56, 62, 70, 74, 79, 100 };

    list.with_book = 0;
    grow_table();
    for (uint32_t i = 1 + below(6); i > 0; i--)
        splice_and_check();
    if (one_in(2))
        damage_key();
    for (uint32_t i = below(16); i > 0; i--)
        step(weights);
}
