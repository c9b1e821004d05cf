/* Images that no list of calls gives: any header, messages and slots. */
#include "parts.h"

#include <string.h>

struct messages messages;

static void make_scramble(void)
{
    static const uint32_t firsts[] = { 32, 32, 0, 1, 31, 33, 126, 255 };
    static const uint32_t lasts[] = { 126, 126, 255, 125, 127, 32, 33 };
    uint32_t first = one_in(8) ? below(256) : PICK(firsts);
    uint32_t last = one_in(8) ? below(256) : PICK(lasts);
    int counted = one_in(4);

    if (last < first)
        last = one_in(2) ? first : 255;
    poke32(32, first);
    poke32(36, last);
    for (uint32_t i = 0; i < 256; i++)
        if (one_in(2) || i <= last - first)
            poke32(512 + 4 * i, counted ? i : random32());
}

void make_header(uint32_t data)
{
    static const uint8_t start[] = { 'B', 'H', 'T', 'F', 'v', 1, 0 };
    uint32_t room = lent.length - data;
    uint32_t used = one_in(8) ? room : below(room < 200 ? room + 1 : 200);

    for (uint32_t i = 0; i < sizeof start; i++)
        poke(i, start[i]);
    poke(7, (uint8_t)below(run.old_calls ? 2 : 3));
    if (!run.old_calls && one_in(3))
        poke(5, 2), poke(7, 0);
    poke32(8, random32());
    poke32(12, list.key_size);
    poke32(16, list.slots);
    poke32(24, one_in(3) ? random32() : 0x01000193);
    poke32(28, one_in(3) ? random32() : 0x811C9DC5);
    make_scramble();
    poke32(40, 512);
    poke32(44, 2048);
    poke32(48, data);
    poke32(52, data + used);
    poke32(56, random32());
}

uint32_t make_length(uint32_t space)
{
    uint32_t long_lengths[] = { 0x1000000u, 0x3FFFFFFFu, 0x40000000u,
                                0x80000000u, 0xFFFFFFFFu, 0xFFFFFFFBu,
                                space | 0x1000000u, random32() };
    uint32_t style = below(16);

    if (style < 9)
        return space == 0 ? 1 : 1 + below(space < 12 ? space : 12);
    if (style < 11)
        return space;
    if (style < 12)
        return space + 1;
    if (style < 14)
        return 0;
    if (header_size() == 5 && one_in(2))
        return PICK(long_lengths);
    return style < 15 ? 0xFFFFFF : random32() & 0xFFFFFF;
}

/* A message that is good but for its place below D. */
static void make_low_message(void)
{
    uint32_t data = field(48);
    uint32_t places[] = { 60, 1600, data - 5, data - 4, data - 1, data - 9 };
    uint32_t at = PICK(places);

    poke_header(at, one_in(3) ? 'd' : 'a', below(5));
    messages.at[messages.count++] = at;
}

/* Messages one after the other from D on, now and then with a gap. */
static void make_messages(void)
{
    uint32_t at = field(48);
    uint32_t end = field(52);
    uint32_t header = header_size();
    uint32_t wanted = below(HEADERS + 1);

    messages.count = 0;
    while (messages.count < wanted && at + header <= end) {
        uint32_t length = make_length(end - at - header);
        uint32_t letter = one_in(12) ? random32() & 255
                          : one_in(3) ? 'd' : 'a';

        poke_header(at, letter, length);
        messages.at[messages.count++] = at;
        if (one_in(3))
            poke(at + header, (uint8_t)(1 + below(4))); /* a width */
        if (length > end - at - header)
            length = below(8);
        at += header + length + (one_in(6) ? below(8) : 0);
    }
    if (one_in(3))
        make_low_message();
}

uint32_t make_offset(void)
{
    uint32_t data = field(48);
    uint32_t next = field(52);
    uint32_t odd[] = { data, data - 1, data - 4, next - 4,   next - 5,
                       next, next - 1, next - 3, lent.length, lent.length - 4,
                       lent.length - 1, 1, 0xFFFFFFFFu, 0xFFFFFFFCu,
                       0xFFFFFFFBu, 0x80000000u | data, 2048, random32() };
    uint32_t style = below(16);

    if (style < 4)
        return 0;
    if (style < 14 && messages.count > 0)
        return messages.at[below(messages.count)];
    return style < 15 ? PICK(odd) : data + below(next - data + 1);
}

void make_slot(uint32_t slot, const uint8_t *name)
{
    uint32_t at = 2048 + slot * (list.key_size + 4);

    for (uint32_t i = 0; i < list.key_size; i++)
        poke(at + i, name == NULL ? 0 : name[i]);
    if (name != NULL || one_in(3))
        poke32(at + list.key_size, make_offset());
    else
        poke32(at + list.key_size, 0);
}

/* Fills slots with names, in order from a random one or with duplicates. */
static void make_slots(void)
{
    int full = below(5) < 3;
    int doubles = one_in(4);
    uint32_t first = below(list.names);
    uint32_t taken = 0;

    for (uint32_t i = 0; i < list.slots; i++) {
        uint32_t n = doubles ? below(list.names) : (first + i) % list.names;
        int take = full || one_in(2);

        make_slot(i, take ? list.name[n] : NULL);
        taken += (uint32_t)take;
    }
    poke32(20, one_in(3) ? below(list.slots + 1) : taken);
}

/* K and N of a table that ends with a page. */
static void choose_brim(uint32_t *k, uint32_t *n)
{
    static const uint32_t slots[33] = {
        [4] = 256, [12] = 128, [20] = 256, [28] = 64
    };

    *k = 4 + 8 * below(4);
    *n = slots[*k];
}

void make_up_image(int brim)
{
    uint32_t data = data_offset(list.key_size, list.slots);

    set_length(brim ? data : choose_image_length(data));
    if (one_in(2))
        memset(lent.library, 0, lent.length);
    share_image();
    if (one_in(2))
        old_content();
    make_header(data);
    make_messages();
    make_slots();
}

/* Now and then the image ends with its table. */
void made_up_image(void)
{
    int brim = one_in(16);
    uint32_t k, n;

    list.what = "made-up image";
    choose_shape(&k, &n);
    if (brim)
        choose_brim(&k, &n);
    list.key_size = k;
    list.slots = n == 0 || n > 500 ? 1 + below(8) : n;
    choose_names();
    make_up_image(brim);
}

/* A full table of one-byte keys, each with its home so many slots after its
 * own: delete goes round again and again. */
void ring_image(void)
{
    uint32_t n = 2 + below(one_in(8) ? 120 : 20);
    uint32_t turn = one_in(2) ? 1 : below(n);
    uint32_t data = data_offset(1, n);

    list.what = "ring";
    list.key_size = 1;
    list.slots = n;
    choose_names();
    set_length(data + PAGE);
    old_content();
    make_header(data);
    make_messages();
    poke32(24, 0);
    poke32(32, 0);
    poke32(36, 255);
    for (uint32_t i = 0; i < n; i++) {
        uint8_t name = (uint8_t)(i + 1);

        make_slot(i, &name);
        poke32(512 + 4 * (i + 1), (i + turn) % n);
        list.name[i % list.names][0] = name;
    }
    poke32(20, n);
}

/* A list from create on, left in the middle. */
void grown_image(void)
{
    uint32_t k = choose_key_size();
    uint32_t n = 1 + below(8);

    list.what = "grown image";
    list.key_size = k;
    list.slots = n;
    choose_names();
    set_length(choose_image_length(data_offset(k, n)));
    old_content();
    create(k, n);
    if (one_in(3))
        convert_list();
    add_all_names();
    for (uint32_t i = below(12); i > 0; i--)
        step_add();
}

/* Random bytes, the longer the more like a file. */
void random_image(void)
{
    static const uint8_t start[2][8] = {
        { 'B', 'H', 'T', 'F', 'v', 1, 0, 2 },
        { 'B', 'H', 'T', 'F', 'v', 2, 0, 0 }
    };
    uint32_t version = below(2);
    uint32_t right = below(sizeof start[0] + 4);

    list.what = "random image";
    list.key_size = choose_key_size();
    list.slots = 1 + below(8);
    choose_names();
    set_length(PAGE * (1 + below(3)));
    old_content();
    for (uint32_t i = 0; i < right && i < sizeof start[0]; i++)
        poke(i, start[version][i]);
    if (one_in(2))
        poke32(12, 1);
    if (one_in(2))
        poke32(16, 1);
    if (one_in(2))
        poke32(48, PAGE);
}
