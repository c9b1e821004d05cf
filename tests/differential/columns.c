/* Readings by column: what is stored, and what a lent slice is filled with, by
 * their definition. */
#include "parts.h"

#include <string.h>

static int is_width(uint32_t width)
{
    return 1 <= width && width <= 64;
}

static uint32_t choose_width(void)
{
    static const uint32_t edges[] = { 1,  2,  3,  4,  7,  8,  9, 12,
                                      15, 16, 17, 24, 32, 63, 64, 64 };
    static const uint32_t wrong[] = {
        0, 65, 128, 255, 256, 257, 256 + 64, 0x80000001u, 0x10000u,
        0xFFFFFFFFu
    };

    if (one_in(24))
        return PICK(wrong);
    return one_in(3) ? 1 + below(6) : PICK(edges);
}

/* Mostly whole records; the byte that stands before them counts too. */
static void choose_records(uint32_t name)
{
    uint32_t width = list.now.width;
    size_t size;

    choose_data(name);
    size = list.now.data_len;
    if (size > 0 && one_in(2))
        size--;
    if (is_width(width) && one_in(3))
        size = width * (size_t)below(one_in(2) ? 40 : 4);
    else if (is_width(width) && !one_in(16))
        size -= size % width;
    lend_data(size);
}

/* Of the last call's key. */
static void read_back(void)
{
    struct call last = list.now;

    new_call(READ);
    list.now.key = last.key;
    list.now.key_len = last.key_len;
    run_call();
}

static void step_store(void)
{
    uint32_t name;

    new_call(STORE);
    name = choose_key();
    list.now.width = choose_width();
    choose_records(name);
    if (run_call().number == 0 && name < NAMES)
        list.last_length[name] = 1 + (uint32_t)list.now.data_len;
    if (one_in(2))
        read_back();
}

static void step_read(void)
{
    new_call(READ);
    choose_key();
    run_call();
}

void step_columns(void)
{
    if (one_in(2))
        step_store();
    else
        step_read();
}

/* The message that a lookup shows in the image before the call: its offset and
 * length, 0 if there is none. */
static struct answer message_before(const struct call *c)
{
    const struct answer none = { 0, 0, 0, 0, 0, 0, 0, 0, 0, 0 };
    struct call look = *c;

    if (c->image_len > lent.length)
        return none;
    look.kind = LOOKUP;
    look.form = PLAIN;
    return perform_plain(lent.before, &look);
}

/* Around what the records need, none, or more than enough. */
void lend_filled(void)
{
    uint32_t stored = message_before(&list.now).second;
    uint32_t needed = stored == 0 ? 0 : stored - 1;
    uint32_t style = below(16);
    size_t length = needed;

    if (style == 0)
        length = below(needed + 1);
    else if (style < 4 && needed > 0)
        length = needed - 1;
    else if (style < 8)
        length = needed + below(40);
    if (one_in(60) && data_size > POOL) /* does not fit 32 bits */
        length = (size_t)(below(needed + 1) + (UINT64_C(1) << 32));
    list.now.list_len = length;
    lend_slice(&filled, list.now.list_len);
    fill_slice(&filled);
}

/* The stored bytes: W, then column after column. */
void compare_stored(const struct call *c)
{
    struct call look = *c;
    struct answer a;
    const uint8_t *stored;
    size_t count = c->data_len / c->width;

    look.kind = LOOKUP;
    look.form = PLAIN;
    a = perform_plain(lent.library, &look);
    if (a.number != 0 || a.second != 1 + c->data_len)
        fail("what was stored is not one byte more than the records");
    stored = lent.library + a.first;
    if (stored[0] != c->width)
        fail("the first stored byte is not W");
    for (size_t i = 0; i < c->data_len; i++)
        if (stored[1 + i] != c->data[i % count * c->width + i / count])
            fail("the stored bytes are not the columns");
}

/* The records of the stored bytes, and behind them what was there; a refused
 * reading answers 0. */
void compare_filled(const struct call *c, const struct answer *a)
{
    struct answer m = message_before(c);
    const uint8_t *stored = lent.before + m.first;
    size_t count;

    compare_slice("the slice", &filled, a->bytes);
    if (a->number != 0) {
        if (a->bytes != 0)
            fail("a refused reading answers bytes");
        return;
    }
    if (m.number != 0 || m.second == 0 || !is_width(stored[0]) ||
        (m.second - 1) % stored[0] != 0 || m.second - 1 > c->list_len)
        fail("a reading is accepted that 19 refuses");
    if (a->bytes != m.second - 1)
        fail("the answer is not how many bytes the records have");
    count = a->bytes / stored[0];
    for (size_t i = 0; i < a->bytes; i++)
        if (filled.library[i] !=
            stored[1 + i % stored[0] * count + i / stored[0]])
            fail("the slice does not have the records");
}

/* Rearranging what was read gives the stored bytes: storing it again in its
 * place leaves the message as it was. */
void store_again(const struct call *c, const struct answer *a)
{
    struct answer m = message_before(c);
    struct call store = *c;

    if (a->number != 0 || !one_in(4))
        return;
    store.kind = STORE;
    store.form = PLAIN;
    store.width = lent.before[m.first];
    store.data = filled.library;
    store.data_len = a->bytes;
    memcpy(lent.scratch, lent.before, c->image_len);
    if (perform_library(lent.scratch, &store).number != 0 ||
        memcmp(lent.scratch, lent.before, c->image_len) != 0)
        fail("what was read, stored again, is another message");
}
