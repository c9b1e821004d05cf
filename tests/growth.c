/* Cases of growth (02, Job 12), written out by hand: lists of calls that start
 * it, and what lists from sound images cannot show, on damaged pairs. K = 1 and
 * seed 0; names below 32 have one home. Ends with "N passed, 0 failed". */
#include "calls.h"

#include <stdio.h>
#include <string.h>

#define ROOM 65536u
#define R 4096u /* a page behind the table, if no other room is said */

enum { AT_COUNT = 20, AT_DATA = 48, AT_NEXT = 52 };
enum { TABLE = 2048, PAGE = 4096, D = 4096 }; /* D of these small tables */

static unsigned passed;
static unsigned failed;

struct half {
    uint8_t bytes[ROOM];
    size_t length;
};

static struct half old, new;
static struct half old_before, new_before;
static uint8_t text[ROOM];

/* ---- helpers ---- */

static void expect(const char *what, uint32_t got, uint32_t want)
{
    if (got == want) {
        passed++;
        return;
    }
    failed++;
    printf("FAILED: %s: got %u, expected %u\n", what, got, want);
}

static uint32_t get32(const struct half *h, uint32_t at)
{
    return (uint32_t)h->bytes[at] << 24 | (uint32_t)h->bytes[at + 1] << 16 |
           (uint32_t)h->bytes[at + 2] << 8 | h->bytes[at + 3];
}

static void put32(struct half *h, uint32_t at, uint32_t value)
{
    for (uint32_t i = 0; i < 4; i++)
        h->bytes[at + i] = (uint8_t)(value >> (24 - 8 * i));
}

/* K = 1. */
static uint32_t slot_at(uint32_t slot)
{
    return TABLE + 5 * slot;
}

static uint32_t key_in(const struct half *h, uint32_t slot)
{
    return h->bytes[slot_at(slot)];
}

static uint32_t offset_in(const struct half *h, uint32_t slot)
{
    return get32(h, slot_at(slot) + 1);
}

/* The slot that a name is in, or N. */
static uint32_t slot_of(const struct half *h, uint8_t name)
{
    uint32_t n = get32(h, 16), slot = 0;

    while (slot < n && key_in(h, slot) != name)
        slot++;
    return slot;
}

/* Created with so many bytes behind its table. */
static void make(struct half *h, uint32_t k, uint32_t n, uint32_t room)
{
    h->length = D + room;
    memset(h->bytes, 0, sizeof h->bytes);
    subject.create(h->bytes, h->length, k, n, 0);
}

static void make_pair(uint32_t n_old, uint32_t n_new)
{
    make(&old, 1, n_old, R);
    make(&new, 1, n_new, R);
}

/* One image alone. */
static uint32_t put(struct half *h, uint8_t name, size_t size, uint32_t mode)
{
    return subject.add(h->bytes, h->length, &name, 1, text, size, mode);
}

static uint32_t put_text(struct half *h, uint8_t name, const char *t,
                         uint32_t mode)
{
    return subject.add(h->bytes, h->length, &name, 1, (const uint8_t *)t,
                       strlen(t), mode);
}

/* The pair. */
static uint32_t start(void)
{
    return subject.grow(old.bytes, old.length, new.bytes, new.length);
}

static uint32_t add(uint8_t name, size_t size, uint32_t mode)
{
    return subject.grow_add(old.bytes, old.length, new.bytes, new.length,
                            &name, 1, text, size, mode);
}

static uint32_t add_text(uint8_t name, const char *t, uint32_t mode)
{
    return subject.grow_add(old.bytes, old.length, new.bytes, new.length,
                            &name, 1, (const uint8_t *)t, strlen(t), mode);
}

static uint32_t delete(uint8_t name)
{
    return subject.grow_remove(old.bytes, old.length, new.bytes, new.length,
                               &name, 1);
}

/* Both C together, of an accepted count. */
static uint32_t count(void)
{
    uint32_t c;

    expect("count", subject.grow_count(old.bytes, old.length, new.bytes,
                                       new.length, &c), 0);
    return c;
}

/* A lookup's text, and where it is; NULL for none. */
static void expect_text(const char *what, uint8_t name, uint32_t in_new,
                        const char *want)
{
    uint32_t there, offset, size;
    const struct half *h;

    expect(what, subject.grow_lookup(old.bytes, old.length, new.bytes,
                                     new.length, &name, 1, &there, &offset,
                                     &size), 0);
    h = there ? &new : &old;
    expect(what, there, in_new);
    expect(what, offset != 0, want != NULL);
    if (want == NULL)
        return;
    expect(what, size, (uint32_t)strlen(want));
    expect(what, memcmp(h->bytes + offset, want, strlen(want)) == 0, 1);
}

static uint32_t look(uint8_t name)
{
    uint32_t there = 7, offset = 7, size = 7, number;

    number = subject.grow_lookup(old.bytes, old.length, new.bytes, new.length,
                                 &name, 1, &there, &offset, &size);
    if (number != 0)
        expect("a refused lookup shows nothing", there + offset + size, 0);
    return number;
}

static void keep(void)
{
    old_before = old;
    new_before = new;
}

static void expect_kept(const char *what)
{
    expect(what, memcmp(&old, &old_before, sizeof old), 0);
    expect(what, memcmp(&new, &new_before, sizeof new), 0);
}

/* Points in both images. */
static void expect_counts(const char *what, uint32_t in_old, uint32_t in_new)
{
    expect(what, get32(&old, AT_COUNT), in_old);
    expect(what, get32(&new, AT_COUNT), in_new);
}

static uint32_t used(const struct half *h)
{
    return get32(h, AT_NEXT) - get32(h, AT_DATA);
}

/* Names from 1 on, each with so many bytes, or without a message. */
static void fill(struct half *h, uint8_t points, size_t size, uint32_t mode)
{
    for (uint8_t i = 1; i <= points; i++)
        expect("a point of the old image", put(h, i, size, mode), 0);
}

/* ---- lists ---- */

static void from_two_to_four(void)
{
    make_pair(2, 4);
    expect("1 P", put_text(&old, 1, "P", 1), 0);
    expect("2 QR", put_text(&old, 2, "QR", 1), 0);
    expect("3 in a full table", put(&old, 3, 0, 3), 10);
    keep();
    expect("start", start(), 0);
    expect_kept("a start writes nothing");
    expect_text("1 in growth", 1, 0, "P");
    expect_text("2 in growth", 2, 0, "QR");
    expect("3 in growth", look(3), 14);
    expect("count in growth", count(), 2);
    expect("1 again", add_text(1, "X", 1), 9);
    expect("3 withdrawn", add_text(3, "X", 4), 14);
    expect_kept("a refused call moves none");
    expect("3 ST", add_text(3, "ST", 2), 0);
    expect_counts("all moved", 0, 3);
    expect_text("1 moved", 1, 1, "P");
    expect_text("3 added", 3, 1, "ST");
    expect("count after growth", count(), 3);
    expect("compaction", subject.compact(new.bytes, new.length), 0);
    expect("delete 1", delete(1), 0);
    expect("delete 1 again", delete(1), 14);
    expect_text("3 stays", 3, 1, "ST");
    expect("count at the end", count(), 2);
}

/* A deleted point's space counts in U for good: it moves before it goes. */
static void deleted_in_growth(void)
{
    make_pair(2, 3);
    put(&old, 1, 100, 1);
    expect("start", start(), 0);
    expect("delete of a point in the old image", delete(1), 0);
    expect("its space", used(&new), 104);
    expect("4,092 bytes", add(2, 4092, 1), 13);
    expect("3,988 bytes", add(2, 3988, 1), 0);
    expect("count", count(), 1);
}

static void twelve_messages(void)
{
    make(&old, 1, 12, R);
    make(&new, 1, 13, R);
    fill(&old, 12, 300, 1);
    expect("start", start(), 0);
    keep();
    expect("445 bytes", add(13, 445, 1), 13);
    expect_kept("13 leaves both");
    expect("444 bytes", add(13, 444, 1), 0);
    expect_counts("9 in the new image", 4, 9);
    expect("301 in place of 300", add(1, 301, 2), 13);
    expect("300 in place of 300", add(1, 300, 2), 0);
    expect("301 in place of 300, moved before", add(12, 301, 2), 13);
    expect_counts("moved to the end", 0, 13);
    expect("filled to the last byte", used(&new), R);
}

/* A call's own 10 has both C. */
static void both_counts(void)
{
    make_pair(19, 20);
    fill(&old, 19, 0, 3);
    expect("start", start(), 0);
    expect("one more", add(20, 0, 3), 0);
    expect_counts("9 moved or added", 11, 9);
    keep();
    expect("two more", add(21, 0, 3), 10);
    expect_kept("10 leaves both");
    expect("count", count(), 20);
}

/* The named point moves beside the 8, and an accepted call that changes nothing
 * moves too. */
static void named_beside_eight(void)
{
    make_pair(11, 12);
    fill(&old, 11, 0, 3);
    expect("start", start(), 0);
    expect("nothing appended", add(5, 0, 3), 0);
    expect_counts("the named point and 8", 2, 9);
    expect("withdrawn", add(5, 0, 4), 0);
    expect_counts("the last ones", 0, 11);
}

static void eight_moves(void)
{
    make_pair(20, 30);
    fill(&old, 20, 0, 3);
    expect("start", start(), 0);
    expect("a new point", add(25, 0, 3), 0);
    expect_counts("8 moved", 12, 9);
    expect("delete of it", delete(25), 0);
    expect_counts("8 moved, one deleted", 4, 16);
    expect("the last four", delete(key_in(&new, slot_of(&new, 1))), 0);
    expect_counts("4 moved, one deleted", 0, 19);
}

/* What was withdrawn is not held any more. */
static void withdrawn_before(void)
{
    make_pair(2, 3);
    put(&old, 1, 5, 1);
    put(&old, 1, 0, 4);
    expect("start", start(), 0);
    expect_text("withdrawn", 1, 0, NULL);
    expect("4 bytes", add(1, 4, 2), 0);
    expect("in new space", used(&new), 8);
}

/* Lowest slot anew each time: 2 from slot 0, 3, which closed up, from slot 0,
 * 1 from slot 3. */
static void order_of_moves(void)
{
    static const uint8_t want[] = "a\0\0\1Ta\0\0\2QRa\0\0\1Sa\0\0\1P";

    make_pair(4, 6);
    put_text(&old, 1, "P", 1);
    put_text(&old, 2, "QR", 1);
    put_text(&old, 3, "S", 1);
    expect("1 in slot 3", key_in(&old, 3), 1);
    expect("2 in slot 0", key_in(&old, 0), 2);
    expect("3 in slot 1", key_in(&old, 1), 3);
    expect("start", start(), 0);
    expect("4 T", add_text(4, "T", 1), 0);
    expect("the new messages",
           memcmp(new.bytes + D, want, sizeof want - 1) == 0, 1);
    expect("X", used(&new), sizeof want - 1);
    expect("the old letters", old.bytes[D] == 'd' && old.bytes[D + 5] == 'd' &&
                                  old.bytes[D + 11] == 'd', 1);
    expect("the old table", slot_of(&old, 0), 0);
}

/* Notes, points without a message and inactive ones, and the version. */
static void what_moves(void)
{
    make_pair(3, 6);
    put(&old, 1, 0, 1); /* a note */
    put(&old, 2, 0, 3);
    put(&old, 3, 5, 1);
    put(&old, 3, 0, 4);
    new.bytes[7] = 0;
    expect("start", start(), 0);
    expect("a new point", add(4, 0, 3), 0);
    expect("version after a note moved", new.bytes[7], 2);
    expect_text("the note", 1, 1, "");
    expect_text("no message", 2, 0, NULL);
    expect_text("an inactive one", 3, 0, NULL);
    expect("no offset", offset_in(&new, slot_of(&new, 3)), 0);
    expect("the note alone takes space", used(&new), 4);
}

static void version_stays(void)
{
    make_pair(3, 6);
    put(&old, 1, 0, 3);
    new.bytes[7] = 0;
    expect("start", start(), 0);
    expect("a text", add(4, 3, 1), 0);
    expect("version without a note", new.bytes[7], 0);
}

/* Version 2.0.0: headers of 5 bytes, and the version never changes. */
static void version_2(void)
{
    make_pair(3, 6);
    old.bytes[5] = new.bytes[5] = 2;
    old.bytes[7] = new.bytes[7] = 0;
    put(&old, 1, 0, 1);
    put(&old, 2, 100, 1);
    expect("start", start(), 0);
    expect("3,982 bytes", add(3, 3982, 1), 13);
    expect("3,981 bytes", add(3, 3981, 1), 0);
    expect("filled to the last byte", used(&new), R);
    expect("version", new.bytes[7], 0);
}

/* ---- the start ---- */

static void starts(void)
{
    make(&old, 1, 2, R);
    put(&old, 1, 100, 1);
    make(&new, 1, 2, R);
    expect("as many slots", start(), 21);
    make(&new, 2, 3, R);
    expect("another K", start(), 21);
    make(&new, 1, 3, 0);
    expect("no room", start(), 21);
    make(&new, 1, 3, R);
    put32(&new, AT_NEXT, D + 1);
    expect("X above D", start(), 21);
    make(&new, 1, 3, R);
    put32(&new, AT_COUNT, 1);
    expect("C of 1", start(), 21);
    make(&new, 1, 3, R);
    put(&new, 9, 0, 3);
    expect("a point", start(), 21);
    make(&new, 1, 3, R);
    put32(&new, AT_NEXT, 9000);
    expect("X above L", start(), 21);
    make(&new, 1, 3, R);
    new.bytes[7] = 3;
    expect("no version", start(), 21);
    new.bytes[5] = 2, new.bytes[7] = 0;
    expect("another major version", start(), 21);
    make(&new, 1, 3, R);
    new.length = 0;
    expect("no bytes", start(), 21);
    subject.remove(old.bytes, old.length, (const uint8_t *)"\1", 1);
    make(&new, 1, 3, 0);
    expect("no points, no room", start(), 0);
}

static void starts_accepted(void)
{
    make_pair(2, 3);
    put(&old, 1, 4092, 1);
    new.bytes[7] = 0;              /* an earlier version */
    put32(&new, 8, 12345);         /* serial */
    put32(&new, 24, 7);            /* multiplier */
    put32(&new, 56, 99);           /* M */
    put32(&new, slot_at(1) + 1, 77); /* offset of an empty slot */
    new.bytes[D + 9] = 'a';
    keep();
    expect("R = U, and other bytes", start(), 0);
    expect_kept("a start writes nothing");
    make_pair(2, 3);
    put(&old, 1, 4087, 1);
    put(&old, 1, 0, 4);
    expect("one byte", put(&old, 2, 1, 1), 0);
    expect("inactive messages need no room", start(), 0);
}

static void order_of_start(void)
{
    make_pair(2, 2);
    put32(&old, AT_COUNT, 1);
    expect("15 before 21", start(), 15);
    old.bytes[4] = 'x';
    expect("5 before 15", start(), 5);
    old.length = 100;
    expect("1 before 5", start(), 1);
}

/* ---- damaged pairs ---- */

/* Modes 1 to 4 and delete of a name. */
static void expect_five(const char *what, uint8_t name, uint32_t number)
{
    keep();
    for (uint32_t mode = 1; mode <= 4; mode++)
        expect(what, add(name, 3, mode), number);
    expect(what, delete(name), number);
    expect_kept(what);
}

static void name_in_both(void)
{
    make_pair(4, 6);
    put_text(&old, 1, "old", 1);
    put_text(&new, 1, "new", 1);
    expect_five("a name in both", 1, 9);
    expect_text("of a name in both", 1, 0, "old");
    expect("count of both", count(), 2);
    make_pair(4, 6);
    put(&old, 1, 0, 3);
    put(&new, 1, 0, 3);
    expect_five("a name without a message in both", 1, 9);
    expect("another one", add(2, 0, 3), 0);
    expect_counts("which ends the moves", 1, 2);
}

static void wrong_counts(void)
{
    make_pair(4, 6);
    put(&old, 1, 5, 1);
    put32(&old, AT_COUNT, 0);
    expect_five("old C = 0", 1, 11);
    expect("count of none", count(), 0);
    expect("a name in neither image", add(2, 3, 1), 0);
    expect_counts("moves nothing", 0, 1);
    make_pair(4, 6);
    put(&old, 1, 5, 1);
    put32(&new, AT_COUNT, 6);
    expect_five("new C = N", 1, 10);
    make_pair(4, 6);
    put(&new, 1, 5, 1);
    put32(&new, AT_COUNT, 0);
    expect("delete's C of the new image", delete(1), 11);
}

/* A refused move ends the moves; it is not passed over. */
static void bad_letter(void)
{
    make_pair(4, 6);
    put_text(&old, 1, "P", 1);
    put_text(&old, 2, "QR", 1);
    expect("2 in the lowest slot", key_in(&old, 0), 2);
    old.bytes[offset_in(&old, 0)] = 'x';
    expect("a new point", add(3, 2, 1), 0);
    expect_counts("moves nothing", 2, 1);
    expect_five("its own message", 2, 11);
    expect("lookup of it", look(2), 11);
    expect("the other one, by name", add(1, 0, 3), 0);
    expect_counts("moves alone", 1, 2);
}

/* Two old points on one message: the named point's move comes before U is
 * reckoned, and leaves the other one's inactive. */
static void one_message(size_t more, uint32_t number)
{
    make_pair(2, 3);
    put(&old, 1, 100, 1);
    put(&old, 2, 0, 3);
    put32(&old, slot_at(slot_of(&old, 2)) + 1,
          offset_in(&old, slot_of(&old, 1)));
    expect("3,842 bytes in the new image", put(&new, 3, 3842, 1), 0);
    expect("appended to a shared message", add(1, more, 3), number);
}

/* A message that fails 11 is not in the sum. */
static void left_out(void)
{
    make_pair(2, 3);
    put(&old, 1, 100, 1);
    keep();
    expect("4,092 bytes beside 100", add(3, 4092, 1), 13);
    old.bytes[D + 1] = 1; /* its length */
    expect("beside a message that fails 11", add(3, 4092, 1), 0);
    expect_counts("which does not move", 1, 1);
    old = old_before;
    new = new_before;
    put(&old, 1, 0, 4);
    expect("beside an inactive one", add(3, 4092, 1), 0);
    expect_counts("which moves without it", 0, 2);
}

/* An empty slot's offset may lead to a message; it is no point's. */
static void no_point(void)
{
    make_pair(4, 6);
    put(&old, 1, 100, 1);
    put32(&old, slot_at(1) + 1, offset_in(&old, slot_of(&old, 1)));
    expect("3,989 bytes", add(3, 3989, 1), 13);
    expect("3,988 bytes", add(3, 3988, 1), 0);
}

static void exchanged(void)
{
    struct half h;

    make_pair(4, 6);
    put(&new, 1, 5, 1);
    h = old, old = new, new = h;
    expect("the pair lent the wrong way round", add(2, 3, 1), 0);
    expect_counts("moves back", 0, 2);
}

/* ---- order of the questions ---- */

static uint32_t nameless(void)
{
    return subject.grow_remove(old.bytes, old.length, new.bytes, new.length,
                               NULL, 0);
}

static void order_of_21(void)
{
    uint32_t c = 7;

    make_pair(4, 6);
    expect("no name", nameless(), 7);
    new.length = 4095;
    expect("21 before 7", nameless(), 21);
    expect("21 of count", subject.grow_count(old.bytes, old.length, new.bytes,
                                             new.length, &c), 21);
    expect("21 counts nothing", c, 0);
    old.bytes[4] = 'x';
    expect("5 before 21", nameless(), 5);
    make_pair(4, 6);
    new.bytes[5] = 2, new.bytes[7] = 0;
    expect("another major version", nameless(), 21);
    make(&new, 2, 6, R);
    expect("another K", nameless(), 21);
    make(&new, 1, 2, R);
    expect("fewer slots may be", nameless(), 7);
    expect("and take points", add(1, 3, 1), 0);
    expect("8 before the named point's number",
           (put32(&old, AT_COUNT, 0), put(&old, 2, 0, 3),
            put32(&old, AT_COUNT, 0), add(2, 0, 5)), 8);
    expect("11 of the named point", add(2, 0, 1), 11);
}

/* ---- columns, ranges, epochs ---- */

static void records(void)
{
    uint8_t out[16];
    uint32_t bytes = 7;
    const uint8_t name = 1;

    make_pair(4, 6);
    put(&old, 1, 5, 1);
    old.bytes[D] = 'x';
    expect("19 before the named point's 11",
           subject.grow_store_columns(old.bytes, old.length, new.bytes,
                                      new.length, &name, 1,
                                      (const uint8_t *)"abcde", 5, 2), 19);
    old.bytes[D] = 'a';
    expect("storing", subject.grow_store_columns(
                          old.bytes, old.length, new.bytes, new.length, &name,
                          1, (const uint8_t *)"abcdef", 6, 2), 0);
    expect_text("column after column", 1, 1, "\2acebdf");
    expect("in new space, behind what moved", used(&new), 9 + 11);
    expect("a slice that is too short",
           subject.grow_read_columns(old.bytes, old.length, new.bytes,
                                     new.length, &name, 1, out, 5, &bytes),
           19);
    expect("reads nothing", bytes, 0);
    expect("reading", subject.grow_read_columns(
                          old.bytes, old.length, new.bytes, new.length, &name,
                          1, out, 6, &bytes), 0);
    expect("as many bytes", bytes, 6);
    expect("the records", memcmp(out, "abcdef", 6) == 0, 1);
}

static uint32_t select_between(uint8_t low, uint8_t high, uint8_t *list,
                               size_t size, uint32_t *one, uint32_t *other)
{
    return subject.grow_select(old.bytes, old.length, new.bytes, new.length,
                               &low, 1, &high, 1, list, size, one, other);
}

static void ranges(void)
{
    static const uint8_t want[] = { 0, 0, 0, 0, 0, 0, 0, 3, 0, 0, 0, 3 };
    uint8_t list[40] = { 0 };
    uint32_t one = 7, other = 7;

    make_pair(4, 6);
    put(&old, 1, 0, 3);
    put(&old, 2, 0, 3);
    put(&new, 3, 0, 3);
    expect("1 in slot 3", key_in(&old, 3), 1);
    expect("3 in slot 3", key_in(&new, 3), 3);
    expect("both N, less a byte",
           select_between(1, 9, list, 39, &one, &other), 16);
    expect("16 finds none", one + other, 0);
    expect("22 before 16", select_between(9, 1, list, 0, &one, &other), 22);
    expect("both N", select_between(1, 9, list, 40, &one, &other), 0);
    expect("of the old image", one, 2);
    expect("of the new image", other, 1);
    expect("the old image's first", memcmp(list, want, sizeof want) == 0, 1);
}

/* K = 5: a name of one byte and its epoch. */
static void put_epoch(struct half *h, uint8_t epoch, const char *t)
{
    uint8_t key[5] = { 'P', 0, 0, 0, epoch };

    expect("an epoch", subject.add(h->bytes, h->length, key, 5,
                                   (const uint8_t *)t, strlen(t), 1), 0);
}

static void expect_epoch(const char *what, uint32_t t, uint32_t shown,
                         uint32_t in_new, const char *want)
{
    uint32_t epoch, there, offset, size;

    expect(what, subject.grow_at_epoch(old.bytes, old.length, new.bytes,
                                       new.length, (const uint8_t *)"P", 1, t,
                                       &epoch, &there, &offset, &size), 0);
    expect(what, epoch, shown);
    expect(what, there, in_new);
    expect(what, memcmp((there ? &new : &old)->bytes + offset, want,
                        size) == 0, 1);
}

static void epochs(void)
{
    uint32_t epoch = 7, there = 7, offset = 7, size = 7;

    make(&old, 5, 8, R);
    make(&new, 5, 9, R);
    put_epoch(&old, 3, "three");
    put_epoch(&old, 5, "five");
    put_epoch(&new, 4, "four");
    put_epoch(&new, 5, "FIVE");
    expect_epoch("the old image alone has one", 3, 3, 0, "three");
    expect_epoch("the new image's is later", 4, 4, 1, "four");
    expect_epoch("the old image's at a tie", 9, 5, 0, "five");
    expect("none", subject.grow_at_epoch(
                       old.bytes, old.length, new.bytes, new.length,
                       (const uint8_t *)"P", 1, 2, &epoch, &there, &offset,
                       &size), 14);
    expect("none is shown", epoch + there + offset + size, 0);
    make_pair(4, 6);
    expect("K below 5", subject.grow_at_epoch(
                            old.bytes, old.length, new.bytes, new.length,
                            NULL, 0, 2, &epoch, &there, &offset, &size), 23);
}

int main(void)
{
    memset(text, 't', sizeof text);
    from_two_to_four();
    deleted_in_growth();
    twelve_messages();
    both_counts();
    named_beside_eight();
    eight_moves();
    withdrawn_before();
    order_of_moves();
    what_moves();
    version_stays();
    version_2();
    starts();
    starts_accepted();
    order_of_start();
    name_in_both();
    wrong_counts();
    bad_letter();
    one_message(20, 0);
    one_message(42, 0);
    one_message(43, 13);
    left_out();
    no_point();
    exchanged();
    order_of_21();
    records();
    ranges();
    epochs();
    printf("%u passed, %u failed\n", passed, failed);
    return failed != 0;
}
