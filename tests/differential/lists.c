/* The three kinds of lists. */
#include "parts.h"

#include <string.h>

/* ---- with the book ---- */

static const uint8_t usual[] = { 0, 52, 68, 73, 87, 90, 94, 98 };
static const uint8_t many_deletes[] = { 0, 40, 74, 80, 90, 92, 95, 99 };

/* The walk shows as many points as the book has, upwards. */
static void walk_all(void)
{
    uint32_t shown = 0;
    uint32_t from = 0;

    for (;;) {
        struct answer a;

        new_call(WALK);
        list.now.from = from;
        a = run_call();
        if (a.second == 0)
            break;
        if (a.first < from)
            fail("the walk goes back");
        from = a.first + 1;
        shown++;
    }
    same_as_book("points shown by the walk", shown, book_count(&list.book));
}

/* The file finds exactly the book's points with the book's texts. */
static void close_list(void)
{
    if (list.growing && !close_pair())
        return;
    for (uint32_t i = 0; i < list.book.count; i++)
        look_up(list.book.entries[i].name);
    for (uint32_t i = 0; i < list.names; i++)
        look_up(list.name[i]);
    for (uint32_t c = 1; list.key_size == 1 && c < 256; c++) {
        uint8_t name = (uint8_t)c;

        if (one_in(16))
            look_up(&name);
    }
    step_plain(COUNT);
    step_plain(CHECK);
    if (!run.old_calls) {
        step_select();
        step_epoch();
    }
    walk_all();
}

/* Now and then as long as the old limit, or long enough for question 12, or
 * for a text that is too long for version 1. */
static uint32_t list_length(uint32_t data)
{
    uint32_t lengths[] = { MIB16, 4 * MIB16, MIB16 + data + PAGE,
                           MIB16 + data + PAGE };

    if (data > MIB16 || !one_in(1500))
        return choose_image_length(data);
    return run.old_limits ? MIB16 : PICK(lengths);
}

/* A call on the first name, by its plain form. */
static void call_first(enum kind kind, size_t size, uint32_t mode)
{
    new_call(kind);
    memcpy(lend_key(list.key_size), list.name[0], list.key_size);
    if (kind == ADD)
        lend_data(size);
    list.now.mode = mode;
    list.now.form = PLAIN;
    run_call();
}

/* In version 2.0.0 a text of about the length that is too long for version 1: it
 * stops the way back as long as it is active. */
static void convert_text(size_t size)
{
    call_first(ADD, size, 1);
    new_call(CONVERT);
    list.now.target_len = PAGE;
    run_call();
    convert_list();
    if (header_size() == 4)
        convert_list();
    if (one_in(2))
        call_first(ADD, 0, 4);
    else
        call_first(DELETE, 0, 0);
    convert_list();
    if (header_size() == 4)
        convert_list();
    call_first(DELETE, 0, 0);
}

static void convert_long(void)
{
    convert_list();
    convert_text(MIB16 - 1);
    convert_text(MIB16);
    convert_text(MIB16 + below(3));
}

static void end_list(void)
{
    book_close(&list.book);
    list.with_book = 0;
    list.growing = 0;
}

void list_from_create(void)
{
    const uint8_t *weights = one_in(2) ? usual : many_deletes;
    uint32_t calls = 10 + below(one_in(8) ? 200 : 70);
    int grows = !run.old_calls && one_in(4);
    uint32_t k, n;

    list.what = "from create";
    choose_shape(&k, &n);
    if (grows) /* more points than one call moves */
        n = 8 + below(30);
    list.key_size = k;
    list.slots = n == 0 ? 5507 : n;
    choose_names();
    set_length(list_length(data_offset(k, n)));
    old_content();
    if (one_in(6))
        step_create();
    if (one_in(20))
        step_wrong_length();
    list.with_book = 1;
    if (create(k, n) != 0)
        fail("a lawful create is refused");
    if (lent.length > 1000000) {
        calls = 12;
        list.names = 3;
    }
    if (!run.old_calls && lent.length > MIB16 && list.slots < OLD_SLOTS)
        convert_long();
    else if (!run.old_calls && one_in(3))
        convert_list();
    if (grows || one_in(2))
        add_all_names();
    while (calls-- > 0) {
        if (grows && !list.growing && one_in(8))
            step_start();
        step(weights);
    }
    close_list();
    end_list();
}

/* From a sound image of others on; the check must call it sound. */
void list_reopened(void)
{
    const uint8_t *weights = one_in(2) ? usual : many_deletes;
    uint32_t calls = 10 + below(70);

    sound_image();
    book_read(&list.book, lent.library, lent.length);
    list.with_book = 1;
    step_plain(CHECK);
    close_list();
    if (one_in(3))
        step_compact();
    else if (!run.old_calls && one_in(2))
        step_convert();
    while (calls-- > 0)
        step(weights);
    close_list();
    end_list();
}

/* ---- on damaged images, without ---- */

/* A lawful but shorter slice of the image. */
static void step_shorter(void)
{
    uint32_t pages = lent.length / PAGE;

    new_call((enum kind)(ADD + below(RECOVER - ADD)));
    choose_key();
    choose_data(NAMES);
    list.now.mode = choose_mode();
    list.now.width = below(66);
    list.now.image_len = PAGE * (1 + below(pages));
    run_call();
}

void list_on_damage(void)
{
    static const uint8_t weights[] = { 0, 36, 60, 66, 78, 82, 89, 98 };
    uint32_t style = below(16);
    uint32_t calls = 4 + below(40);

    list.with_book = 0;
    if (style < 9)
        made_up_image();
    else if (style < 11)
        ring_image();
    else if (style < 15)
        grown_image();
    else
        random_image();
    if (style == 15)
        calls = 6;
    for (uint32_t i = below(3); i > 0; i--)
        damage();
    while (calls-- > 0) {
        if (one_in(24))
            damage();
        if (one_in(40))
            step_shorter();
        step(weights);
    }
}
