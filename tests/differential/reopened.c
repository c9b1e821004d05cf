/* Sound images that no list of calls gives, to start from with the book read
 * off them: any hash numbers, versions 1.0.0 to 1.0.2 and 2.0.0, permuted full
 * tables, gaps between messages, inactive and empty messages, bytes left in
 * empty slots. */
#include "parts.h"

#include <string.h>

/* How messages stand: of eight so many are inactive; gaps between them; X where
 * the last one ends. */
static struct layout {
    uint32_t inactive;
    int gaps;
    int tight;
} layout;

static void choose_layout(void)
{
    static const uint32_t parts[] = { 3, 3, 3, 6, 0, 8 };

    layout.inactive = PICK(parts);
    layout.gaps = below(3) > 0;
    layout.tight = one_in(3);
}

static int is_known(const uint8_t *name, uint32_t names)
{
    for (uint32_t i = 0; i < names; i++)
        if (memcmp(list.name[i], name, list.key_size) == 0)
            return 1;
    return 0;
}

static void drop_doubles(void)
{
    uint32_t kept = 0;

    for (uint32_t i = 0; i < list.names; i++)
        if (!is_known(list.name[i], kept))
            memmove(list.name[kept++], list.name[i], sizeof list.name[i]);
    list.names = kept;
}

static uint32_t slot_at(uint32_t slot)
{
    return 2048 + slot * (list.key_size + 4);
}

static void clear_table(void)
{
    for (uint32_t at = 2048; at < slot_at(list.slots); at++)
        poke(at, 0);
    poke32(20, 0);
}

/* A full table is found through in any order. */
static void fill_table(void)
{
    uint32_t first = below(list.names);
    uint32_t back = below(2);

    for (uint32_t i = 0; i < list.slots; i++) {
        uint32_t turn = back ? list.slots - i : i;
        const uint8_t *name = list.name[(first + turn) % list.slots];

        for (uint32_t c = 0; c < list.key_size; c++)
            poke(slot_at(i) + c, name[c]);
    }
    poke32(20, list.slots);
}

/* Some names where the image's own numbers put them. */
static void add_some(void)
{
    for (uint32_t i = below(list.slots + 1); i > 0; i--) {
        new_call(ADD);
        memcpy(lend_key(list.key_size), list.name[below(list.names)],
               list.key_size);
        list.now.mode = 3;
        run_call();
    }
}

static int is_taken(uint32_t slot)
{
    for (uint32_t c = 0; c < list.key_size; c++)
        if (lent.library[slot_at(slot) + c] != 0)
            return 1;
    return 0;
}

/* A message of the slot at that place or behind it; answers its end, or the
 * place if there is no room. */
static uint32_t place_message(uint32_t slot, uint32_t at)
{
    uint32_t start = at;
    uint32_t header = header_size();
    uint32_t least = run.old_calls ? 1 : 0;
    uint32_t end = field(52);
    uint32_t space, length = 0;

    if (layout.gaps && one_in(3))
        start += one_in(6) ? below(end - at + 1) : below(8);
    if (start + header + least > end)
        return at;
    space = end - start - header;
    if (space > 0 && (least > 0 || !one_in(5)))
        length = 1 + below(space < 12 ? space : 12);
    if (one_in(16))
        length = space;
    poke_header(start, below(8) < layout.inactive ? 'd' : 'a', length);
    poke32(slot_at(slot) + list.key_size, start);
    return start + header + length;
}

/* The slots in any order. */
static void shuffle(uint32_t *order)
{
    for (uint32_t i = 0; i < list.slots; i++) {
        uint32_t j = below(i + 1);

        order[i] = order[j];
        order[j] = i;
    }
}

/* Messages from D on, in any order of the slots. */
static void place_messages(void)
{
    uint32_t order[NAMES];
    uint32_t at = field(48);

    shuffle(order);
    for (uint32_t i = 0; i < list.slots; i++) {
        uint32_t slot = order[i];

        if (is_taken(slot) && below(4) > 0)
            at = place_message(slot, at);
        else if (!is_taken(slot) && one_in(3))
            poke32(slot_at(slot) + list.key_size, random32());
    }
    if (layout.tight)
        poke32(52, at);
}

void sound_image(void)
{
    int full = one_in(2);
    uint32_t data;
    uint32_t k, n;

    list.what = "reopened";
    choose_shape(&k, &n);
    list.key_size = k;
    list.slots = n == 0 || n > NAMES ? 1 + below(8) : n;
    choose_names();
    drop_doubles();
    if (full && list.slots > list.names)
        list.slots = list.names;
    data = data_offset(list.key_size, list.slots);
    set_length(choose_image_length(data));
    old_content();
    make_header(data);
    clear_table();
    if (full)
        fill_table();
    else
        add_some();
    choose_layout();
    place_messages();
}
