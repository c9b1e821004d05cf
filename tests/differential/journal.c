/* The form by way of a journal, and recovery: what they are lent, and what they
 * leave by their definition. */
#include "parts.h"

#include <string.h>

#define MARK 0xA5

static void set_mark(uint8_t value)
{
    size_t at = journal.length - 1;

    journal.library[at] = value;
    journal.plain[at] = value;
    if (at < seen_of(&journal))
        journal.before[at] = value;
}

static uint8_t mark_of(const uint8_t *bytes)
{
    return bytes[journal.length - 1];
}

/* ---- what the call is lent ---- */

/* Around what the content needs with the mark, or more than enough. */
static size_t choose_journal_length(void)
{
    struct changed c;
    size_t needed;
    uint32_t style = below(16);

    if (style < 2)
        return style == 0 ? below(7) : below(100);
    if (style < 5)
        return 1000 + below(5000);
    c = foresee();
    needed = 4 + PAIR * c.runs + c.bytes + 1;
    if (style < 9)
        return needed;
    return style < 12 ? needed - 1 : needed + below(20);
}

void lend_journaled(void)
{
    lend_work();
    list.now.journal_len = widen(choose_journal_length());
    lend_slice(&journal, list.now.journal_len);
    fill_slice(&journal);
    if (journal.length == 0)
        return;
    set_mark(0);
    if (one_in(12))
        set_mark(one_in(2) ? MARK : (uint8_t)(1u << below(8)));
    list.now.mark = mark_of(journal.library);
}

/* ---- what it leaves ---- */

/* The count, the pairs, the new bytes. */
static size_t compare_content(size_t length)
{
    struct changed c = count_changed(lent.before, lent.library, length);
    const uint8_t *pairs = journal.library + 4;
    const uint8_t *bytes = pairs + PAIR * c.runs;

    if (4 + PAIR * c.runs + c.bytes >= journal.length)
        fail("the journal is too short, and the call is accepted");
    if (get32(journal.library) != c.runs)
        fail("the journal's count is not the number of runs");
    compare_pairs(pairs, (uint32_t)c.runs, length);
    for (uint32_t i = 0; i < c.runs; i++) {
        uint32_t size = pair_length(pairs, i);

        if (memcmp(bytes, lent.library + pair_offset(pairs, i), size) != 0)
            fail("the journal's bytes are not the new ones");
        bytes += size;
    }
    copy_stretches(pairs, (uint32_t)c.runs, length);
    return (size_t)(bytes - journal.library);
}

/* But for the mark the bytes from there on are as before; the mark is checked
 * where no copy of the journal reaches it, too. */
static void compare_journal(size_t written, uint8_t mark)
{
    if (journal.length > 0 && mark_of(journal.library) != mark)
        fail_number("mark", "library", mark_of(journal.library), "wanted",
                    mark);
    if (journal.length > 0 && journal.length <= seen_of(&journal))
        journal.before[journal.length - 1] = mark;
    compare_slice("the journal", &journal, written);
}

void compare_journaled(const struct call *c, const struct answer *a)
{
    size_t written = 0;

    if (!guards_hold(work.library, work.length, work.shift))
        fail("bytes outside the working slice changed");
    if (a->number == 0 && c->mark != 0)
        fail("the mark was not 0, and the call is accepted");
    if (a->number == 0)
        written = compare_content(c->image_len);
    compare_journal(written, c->mark);
}

/* ---- recovery ---- */

static void put_both(size_t at, uint32_t value)
{
    for (int i = 0; i < 4; i++, at++) {
        uint8_t byte = (uint8_t)(value >> (24 - 8 * i));

        journal.library[at] = byte;
        journal.plain[at] = byte;
        journal.before[at] = byte;
    }
}

/* Content of so many stretches, each in the image and behind the last, some of
 * no bytes, some touching; answers where it ends. */
static size_t make_content(uint32_t count)
{
    uint32_t length = (uint32_t)list.now.image_len;
    uint32_t at = 0;
    size_t end = 4 + PAIR * (size_t)count;

    put_both(0, count);
    for (uint32_t i = 0; i < count; i++) {
        uint32_t size;

        at += one_in(4) ? 0 : below((length - at) / 2 + 1);
        size = below(length - at < 600 ? length - at + 1 : 600);
        if (i + 1 == count && one_in(2))
            at = length - size;
        put_both(4 + PAIR * (size_t)i, at);
        put_both(8 + PAIR * (size_t)i, size);
        at += size;
        end += size;
    }
    return end;
}

/* One number of it is another. */
static void spoil_content(uint32_t count)
{
    static const uint32_t counts[] = { 0x20000000u, 0xFFFFFFFFu, 0x80000000u,
                                       0x1FFFFFFFu };
    uint32_t length = (uint32_t)list.now.image_len;
    uint32_t offsets[] = { length, length + 1, 0xFFFFFFFFu, 0, random32() };
    size_t at = 4 + PAIR * (size_t)below(count) + 4 * below(2);
    uint32_t style = below(8);

    if (style == 0)
        put_both(0, one_in(2) ? PICK(counts) : count + 1);
    else if (count > 0 && style < 5)
        put_both(at, get32(journal.library + at) + 2 * below(2) - 1);
    else if (count > 0)
        put_both(at, PICK(offsets));
}

/* A journal with content, mostly marked; its length is by the content, or, to
 * be too short, one less. */
static void lend_content(void)
{
    uint32_t count = below(6);
    size_t end;

    lend_slice(&journal, 8192);
    fill_slice(&journal);
    end = make_content(count);
    if (one_in(3))
        spoil_content(count);
    lend_slice(&journal, end + (one_in(4) ? below(50) : 1) -
                             (one_in(6) ? 1 : 0));
    memcpy(journal.library, journal.before, seen_of(&journal));
    memcpy(journal.plain, journal.before, seen_of(&journal));
    set_mark(one_in(8) ? (uint8_t)(MARK ^ 1u << below(8)) : MARK);
}

/* Any bytes; the first of them often say a small count. */
static void lend_random_journal(void)
{
    uint32_t marks[] = { 0, MARK, MARK, MARK ^ 1u << below(8), random32() };

    lend_slice(&journal, widen(one_in(3) ? below(8) : below(200)));
    fill_slice(&journal);
    if (journal.length > 4 && one_in(2))
        put_both(0, below(4));
    if (journal.length > 0)
        set_mark((uint8_t)PICK(marks));
}

/* Does recovery write the image? */
static int would_write(void)
{
    struct changed c;

    memcpy(lent.scratch, lent.before, list.now.image_len);
    memcpy(journal.before, journal.plain, seen_of(&journal));
    perform_plain(lent.scratch, &list.now);
    memcpy(journal.plain, journal.before, seen_of(&journal));
    c = count_changed(lent.before, lent.scratch, list.now.image_len);
    return c.runs > 0;
}

void lend_journal(void)
{
    if (list.now.image_len > 0 && one_in(2))
        lend_content();
    else
        lend_random_journal();
    list.now.journal_len = journal.length;
    if (list.with_book && journal.length > 0 && would_write())
        set_mark(0);
    list.now.mark = journal.length > 0 ? mark_of(journal.library) : 0;
}

void compare_recovered(const struct call *c, const struct answer *a)
{
    if (c->mark != MARK && count_changed(lent.before, lent.library,
                                         lent.length).runs > 0)
        fail("the journal is not marked, and the image changed");
    compare_journal(0, a->number == 0 ? 0 : c->mark);
}

/* A second recovery finds nothing to do. */
static void recover_again(void)
{
    memcpy(journal.before, journal.library, seen_of(&journal));
    list.now.mark = 0;
    list.now.again = 1;
    if (run_call().number != 0)
        fail("a second recovery is refused");
}

void step_recover(void)
{
    uint32_t lengths[] = { 0, 1, 59, lent.length - 1, lent.length / 2 };

    new_call(RECOVER);
    if (!list.with_book && one_in(4))
        list.now.image_len = PICK(lengths);
    if (run_call().number == 0 && one_in(4))
        recover_again();
}
