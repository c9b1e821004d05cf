/* Calls with chosen arguments. */
#include "parts.h"

#include <string.h>

void step_add(void)
{
    uint32_t name;

    new_call(ADD);
    name = choose_key();
    choose_data(name);
    list.now.mode = choose_mode();
    if (run_call().number == 0 && name < NAMES && list.now.data_len > 0)
        list.last_length[name] = (uint32_t)list.now.data_len;
}

static void step_key(enum kind kind)
{
    new_call(kind);
    choose_key();
    run_call();
}

static void step_walk(void)
{
    uint32_t far[] = { list.slots, list.slots - 1, list.slots + 1,
                       0x7FFFFFFFu, 0x80000000u, 0xFFFFFFFFu };

    new_call(WALK);
    list.now.from = one_in(6) ? PICK(far) : below(list.slots + 1);
    run_call();
}

void step_plain(enum kind kind)
{
    new_call(kind);
    run_call();
}

/* Compaction; a second one finds nothing to do. */
void step_compact(void)
{
    step_plain(COMPACT);
    if (one_in(4))
        step_plain(COMPACT);
}

void step_wrong_length(void)
{
    new_call((enum kind)below(RECOVER));
    choose_key();
    choose_data(NAMES);
    list.now.mode = choose_mode();
    list.now.width = below(66);
    list.now.key_size = one_in(2) ? list.key_size : 33 * below(2);
    list.now.slots = one_in(2) ? list.slots : SLOTS_MAX + 1;
    list.now.image_len = wrong_image_length();
    if (list.now.image_len > lent.length)
        list.now.form = PLAIN; /* no memory is so long, and a form may write to
                                  its working slice before 1 is put */
    run_call();
}

void step_longest(void)
{
    new_call((enum kind)(ADD + below(RECOVER - ADD)));
    choose_key();
    choose_data(NAMES);
    list.now.mode = choose_mode();
    list.now.width = below(66);
    list.now.image_len = GIB;
    run_call();
}

/* An accepted create starts the list's state anew. */
static void begin_from(const struct call *c)
{
    list.key_size = c->key_size;
    list.slots = c->slots == 0 ? 5507 : c->slots;
    choose_names();
    if (list.with_book)
        book_close(&list.book);
    if (list.with_book)
        book_open(&list.book, lent.length, c->key_size, c->slots);
}

uint32_t create(uint32_t key_size, uint32_t slots)
{
    uint32_t number;

    new_call(CREATE);
    list.now.key_size = key_size;
    list.now.slots = slots;
    list.now.seed = one_in(3) ? 0 : random32();
    number = run_call().number;
    if (number == 0)
        begin_from(&list.now);
    return number;
}

void step_create(void)
{
    static const uint32_t sizes[] = { 0,  33,   34,          64,
                                      32, 4096, 0x80000001u, 0xFFFFFFFFu };
    static const uint32_t slots[] = {
        0,         256,           410,           5033,
        OLD_SLOTS, OLD_SLOTS - 1, SLOTS_MAX + 1, 0x80000001u,
        0x200000u, 0xFFFFFFFFu,   OLD_SLOTS + 1, 131072,
        SLOTS_MAX, SLOTS_MAX - 1, 100000,        0x100001u
    };
    uint32_t k = one_in(3) ? PICK(sizes) : choose_key_size();
    uint32_t n = one_in(2) ? PICK(slots) : choose_slots();

    if (run.old_limits && n > OLD_SLOTS && n <= SLOTS_MAX)
        n = OLD_SLOTS;
    create(k, n);
}

void add_all_names(void)
{
    for (uint32_t i = 0; i < list.names; i++) {
        new_call(ADD);
        memcpy(lend_key(list.key_size), list.name[i], list.key_size);
        list.now.data_len = below(3) * below(8);
        list.now.data = data_start + below(POOL - MIB16);
        list.now.mode = 1;
        if (run_call().number == 0)
            list.last_length[i] = (uint32_t)list.now.data_len;
    }
}

void look_up(const uint8_t *name)
{
    new_call(LOOKUP);
    memcpy(lend_key(list.key_size), name, list.key_size);
    run_call();
}

void step(const uint8_t *weights)
{
    uint32_t style = below(100);

    if (list.growing)
        step_pair();
    else if (!run.old_calls && one_in(list.with_book ? 24 : 60))
        step_start();
    else if (!run.old_calls && one_in(32))
        step_recover();
    else if (!run.old_calls && one_in(10))
        step_columns();
    else if (!run.old_calls && one_in(20))
        step_select();
    else if (!run.old_calls && one_in(list.key_size > 4 ? 8 : 60))
        step_epoch();
    else if (!run.old_calls && one_in(40))
        step_convert();
    else if (!run.old_calls && one_in(200))
        step_convert_to_brim();
    else if (style < weights[ADD])
        step_add();
    else if (style < weights[DELETE])
        step_key(DELETE);
    else if (style < weights[COMPACT])
        step_compact();
    else if (style < weights[LOOKUP])
        step_key(LOOKUP);
    else if (style < weights[COUNT])
        step_plain(COUNT);
    else if (style < weights[WALK])
        step_walk();
    else if (style < weights[CHECK])
        step_plain(CHECK);
    else if (one_in(3))
        step_create();
    else if (one_in(8) && !list.with_book && !run.old_limits)
        step_longest();
    else
        step_wrong_length();
}
