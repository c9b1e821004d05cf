/* 01's proved table, 02's empty notes, compaction, version 2.0.0 and conversion,
 * readings by column, names in ranges, epochs, lists of changes, journal and recovery, and the generator, run
 * on the code under test. Ends with "N passed, 0 failed".
 *
 * The hash is not an export; it is seen through home slots: on an empty table
 * an added key lands in slot hash mod N. 65536, 65535 and 65533 have no
 * common factor and their product exceeds 2^32, so two 32-bit hashes that
 * agree modulo all three are equal. */
#include "calls.h"

#include <stdio.h>
#include <stdlib.h>
#include <string.h>

#define PAGE 4096u
#define IMAGE_ROOM (4u * 1024 * 1024)

enum { AT_KEY_SIZE = 12, AT_SLOTS = 16, AT_COUNT = 20, AT_FIRST = 32 };
enum { AT_LAST = 36, AT_DATA = 48, AT_NEXT = 52, AT_LAST_PAGE = 56 };
enum { SCRAMBLE = 512, TABLE = 2048 };

#define NONE 0xFFFFFFFFu /* no message */

static const uint32_t three[3] = { 65536, 65535, 65533 };

static unsigned passed;
static unsigned failed;
static uint8_t *image;
static size_t length;

/* ---- helpers ---- */

static void expect(const char *what, uint32_t got, uint32_t want)
{
    if (got == want) {
        passed++;
        return;
    }
    failed++;
    printf("FAILED: %s: got %u (0x%08x), expected %u (0x%08x)\n", what, got,
           got, want, want);
}

static uint32_t get32(uint32_t offset)
{
    const uint8_t *at = image + offset;

    return (uint32_t)at[0] << 24 | (uint32_t)at[1] << 16 |
           (uint32_t)at[2] << 8 | (uint32_t)at[3];
}

static void put32(uint32_t offset, uint32_t value)
{
    for (uint32_t i = 0; i < 4; i++)
        image[offset + i] = (uint8_t)(value >> (24 - 8 * i));
}

/* A created image with so many bytes; the bytes before were not zero. */
static uint32_t create(size_t bytes, uint32_t k, uint32_t n, uint32_t seed)
{
    length = bytes;
    memset(image, 0x5A, bytes);
    return subject.create(image, bytes, k, n, seed);
}

static uint32_t add(uint8_t name, const char *text, size_t size,
                    uint32_t mode)
{
    return subject.add(image, length, &name, 1, (const uint8_t *)text, size,
                       mode);
}

static uint32_t delete(uint8_t name)
{
    return subject.remove(image, length, &name, 1);
}

/* The key byte in a slot, K = 1. */
static uint32_t key_in(uint32_t slot)
{
    return image[TABLE + 5 * slot];
}

static void expect_slots(const char *what, const uint8_t *keys, uint32_t n)
{
    for (uint32_t i = 0; i < n; i++)
        expect(what, key_in(i), keys[i]);
}

/* The first slot with a key, read from the bytes; n for none. */
static uint32_t first_taken(uint32_t k, uint32_t n)
{
    uint32_t size = n * (k + 4);

    for (uint32_t i = 0; i < size; i++)
        if (image[TABLE + i] != 0)
            return i / (k + 4);
    return n;
}

/* ---- the proved table ---- */

static void data_offsets(void)
{
    expect("create K 4 N 256", create(65536, 4, 256, 0), 0);
    expect("D of N 256", get32(AT_DATA), 4096);
    expect("create K 4 N 257", create(65536, 4, 257, 0), 0);
    expect("D of N 257", get32(AT_DATA), 8192);
    expect("create K 4 N 5033", create(65536, 4, 5033, 0), 0);
    expect("D of N 5033", get32(AT_DATA), 45056);
    expect("L = D", create(45056, 4, 5033, 0), 0);
    expect("L below D", create(40960, 4, 5033, 0), 4);
}

static void default_slots(void)
{
    expect("create N 0", create(65536, 4, 0, 0), 0);
    expect("N stored", get32(AT_SLOTS), 5507);
    expect("D of N 5507", get32(AT_DATA), 49152);
}

/* M of X - D = 0, 4096 and 4097. */
static void last_pages(void)
{
    static const char bytes[5000];

    create(12288, 1, 4, 0);
    expect("M of 0", get32(AT_LAST_PAGE), 0xFFFFFFFFu);
    expect("add 4092", add(1, bytes, 4092, 1), 0);
    expect("X - D", get32(AT_NEXT) - get32(AT_DATA), 4096);
    expect("M of 4096", get32(AT_LAST_PAGE), 0);
    create(12288, 1, 4, 0);
    expect("add 4093", add(1, bytes, 4093, 1), 0);
    expect("X - D", get32(AT_NEXT) - get32(AT_DATA), 4097);
    expect("M of 4097", get32(AT_LAST_PAGE), 1);
}

static void hash_modulo_three(const char *what, uint8_t name, uint32_t hash)
{
    for (int i = 0; i < 3; i++) {
        expect("create", create(IMAGE_ROOM, 1, three[i], 0), 0);
        expect("add", add(name, NULL, 0, 1), 0);
        expect(what, first_taken(1, three[i]), hash % three[i]);
    }
}

static void seed_0_hashes(void)
{
    hash_modulo_three("hash of byte 32", 32, 0x3962AE40);
    hash_modulo_three("hash of byte 1", 1, 0x050C5D1F);
}

static void four_slots(void)
{
    static const uint8_t names[] = { 1, 2, 3, 32 };
    static const uint8_t full[] = { 2, 3, 32, 1 };
    static const uint8_t after[] = { 3, 32, 0, 2 };

    create(8192, 1, 4, 0);
    for (int i = 0; i < 4; i++)
        expect("add", add(names[i], NULL, 0, 1), 0);
    expect_slots("full table", full, 4);
    expect("fifth name", add(33, NULL, 0, 1), 10);
    expect("delete 1", delete(1), 0);
    expect_slots("after delete", after, 4);
    expect("C", get32(AT_COUNT), 3);
}

/* An opened image: entries stand where no list of calls puts them. */
static void three_slots(void)
{
    static const uint8_t before[] = { 33, 34, 32 };
    static const uint8_t after[] = { 32, 0, 34 };

    create(8192, 1, 3, 0);
    for (uint32_t i = 0; i < 3; i++)
        image[TABLE + 5 * i] = before[i];
    put32(AT_COUNT, 3);
    expect("delete 33", delete(33), 0);
    expect_slots("after delete", after, 3);
}

static void just_fits(void)
{
    static const char bytes[5000];

    create(8192, 1, 4, 0);
    expect("4093 bytes", add(1, bytes, 4093, 1), 13);
    expect("C after 13", get32(AT_COUNT), 0);
    expect("4092 bytes", add(1, bytes, 4092, 1), 0);
    expect("X", get32(AT_NEXT), 8192);
}

static void replacing(void)
{
    create(8192, 1, 4, 0);
    expect("5 bytes", add(1, "abcde", 5, 2), 0);
    expect("U", get32(AT_NEXT) - get32(AT_DATA), 9);
    expect("3 bytes", add(1, "xyz", 3, 2), 0);
    expect("U", get32(AT_NEXT) - get32(AT_DATA), 9);
    expect("rest zeroed", get32(4096 + 4 + 3) >> 16, 0);
    expect("4 bytes", add(1, "wxyz", 4, 2), 0);
    expect("U", get32(AT_NEXT) - get32(AT_DATA), 17);
}

static void key_of_zeros(void)
{
    uint32_t a, b;
    uint8_t zero = 0;

    create(8192, 1, 4, 0);
    expect("add", add(0, "x", 1, 1), 7);
    expect("delete", delete(0), 7);
    expect("lookup", subject.lookup(image, length, &zero, 1, &a, &b), 7);
}

/* The lister's example, by walk and lookup. */
static void lister_example(void)
{
    static const uint32_t want[3][3] = {
        { 0, 2, 2 }, { 1, 3, 0 }, { 3, 1, 1 }
    };
    uint32_t slot = 0, at = 0, offset, size, from = 0;

    create(8192, 1, 4, 0);
    add(1, "P", 1, 1);
    add(2, "QR", 2, 1);
    add(3, NULL, 0, 1);
    for (int i = 0; i < 3; i++) {
        expect("walk", subject.walk(image, length, from, &slot, &at), 0);
        expect("slot", slot, want[i][0]);
        expect("key", image[at], want[i][1]);
        subject.lookup(image, length, image + at, 1, &offset, &size);
        expect("length", size, want[i][2]);
        from = slot + 1;
    }
    expect("walk", subject.walk(image, length, from, &slot, &at), 0);
    expect("end", at, 0);
}

/* ---- empty notes ---- */

/* U, and the message of byte 1: its length, or none. */
static void expect_note(const char *what, uint32_t used, uint32_t size)
{
    const uint8_t name = 1;
    uint32_t offset = 77, got = 77;

    expect(what, get32(AT_NEXT) - get32(AT_DATA), used);
    expect("  lookup", subject.lookup(image, length, &name, 1, &offset, &got),
           0);
    expect("  has a message", offset != 0, size != NONE);
    expect("  its length", got, size == NONE ? 0 : size);
}

static void notes(void)
{
    create(8192, 1, 4, 0);
    expect("version", get32(4), 0x76010002u);
    expect("empty note", add(1, NULL, 0, 1), 0);
    expect_note("U of an empty note", 4, 0);
    expect("header", get32(4096), 0x61000000u);
    expect("empty again", add(1, NULL, 0, 2), 0);
    expect_note("U, in place", 4, 0);
    expect("nothing appended", add(1, NULL, 0, 3), 0);
    expect_note("U, nothing appended", 4, 0);
    expect("5 bytes appended", add(1, "abcde", 5, 3), 0);
    expect_note("U, behind the note", 13, 5);
    expect("old header", get32(4096), 0x64000000u);
    expect("withdrawn", add(1, "data", 4, 4), 0);
    expect_note("U, withdrawn", 13, NONE);
    expect("withdrawn twice", add(1, NULL, 0, 4), 0);
    expect_note("U, withdrawn twice", 13, NONE);
    expect("replaced by 5", add(1, "vwxyz", 5, 2), 0);
    expect_note("U, held kept", 13, 5);
    expect("empty in place", add(1, NULL, 0, 2), 0);
    expect_note("U, empty in place", 13, 0);
    expect("bytes zeroed", get32(4100 + 4) | get32(4100 + 5), 0);
    expect("replaced by 1", add(1, "z", 1, 2), 0);
    expect_note("U, held 0", 18, 1);
    expect("absent, withdrawn", add(2, NULL, 0, 4), 14);
    expect("mode 5", add(2, NULL, 0, 5), 8);
}

/* Without room: 13 for a note, none for nothing appended. */
static void no_room_for_notes(void)
{
    create(4096, 1, 4, 0);
    expect("note, mode 1", add(1, NULL, 0, 1), 13);
    expect("note, mode 2", add(1, NULL, 0, 2), 13);
    expect("C", get32(AT_COUNT), 0);
    expect("nothing appended", add(1, NULL, 0, 3), 0);
    expect_note("U", 0, NONE);
    expect("note in its place", add(1, NULL, 0, 2), 13);
    expect("withdrawn", add(1, NULL, 0, 4), 0);
    expect_note("U", 0, NONE);
}

/* ---- compaction ---- */

static uint32_t compact(void)
{
    return subject.compact(image, length);
}

/* Freed space is used again: 4,092 bytes fit after delete and compaction. */
static void space_again(void)
{
    static const char bytes[5000];

    create(8192, 1, 4, 0);
    expect("4092 bytes", add(1, bytes, 4092, 1), 0);
    expect("delete", delete(1), 0);
    expect("another byte", add(2, bytes, 1, 1), 13);
    expect("compact", compact(), 0);
    expect("U", get32(AT_NEXT) - get32(AT_DATA), 0);
    expect("M", get32(AT_LAST_PAGE), 0xFFFFFFFFu);
    expect("4092 bytes again", add(2, bytes, 4092, 1), 0);
    expect("X", get32(AT_NEXT), 8192);
}

/* Byte 1 is replaced by a longer text, byte 3 withdrawn; the messages of bytes
 * 2 and 1, in slots 1 and 3, stay. */
static void packing(void)
{
    create(8192, 1, 4, 0);
    add(1, "first", 5, 1);
    add(3, "gone", 4, 1);
    add(2, "QR", 2, 1);
    add(1, "second", 6, 2);
    add(3, NULL, 0, 4);
    put32(8000, 0x12345678);
    expect("U", get32(AT_NEXT) - get32(AT_DATA), 9 + 8 + 6 + 10);
    expect("compact", compact(), 0);
    expect("U", get32(AT_NEXT) - get32(AT_DATA), 6 + 10);
    expect("M", get32(AT_LAST_PAGE), 0);
    expect("first message", get32(4096), 0x61000002u);
    expect("second message", get32(4102), 0x61000006u);
    expect("its text", memcmp(image + 4106, "second", 6), 0);
    expect("offset of byte 2", get32(TABLE + 5 * 1 + 1), 4096);
    expect("offset of byte 3", get32(TABLE + 5 * 0 + 1), 0);
    expect("offset of byte 1", get32(TABLE + 5 * 3 + 1), 4102);
    expect("behind X", get32(4112) | get32(8000), 0);
    expect("replaced by 6", add(1, "secret", 6, 2), 0);
    expect("U", get32(AT_NEXT) - get32(AT_DATA), 16);
    expect("compact again", compact(), 0);
    expect("U", get32(AT_NEXT) - get32(AT_DATA), 16);
}

/* Nothing dead: M stays, even a wrong one; bytes behind X do not. */
static void nothing_dead(void)
{
    create(8192, 1, 4, 0);
    add(1, "P", 1, 1);
    put32(AT_LAST_PAGE, 77);
    put32(8188, 77);
    expect("compact", compact(), 0);
    expect("X", get32(AT_NEXT), 4101);
    expect("M", get32(AT_LAST_PAGE), 77);
    expect("behind X", get32(8188), 0);
}

/* 15 for a wrong count, and for two points on one message; 5 and 6 before. */
static void unsound(void)
{
    create(8192, 1, 4, 0);
    add(1, "P", 1, 1);
    add(2, "Q", 1, 1);
    put32(8188, 77);
    put32(AT_COUNT, 1);
    expect("wrong count", compact(), 15);
    put32(AT_COUNT, 5);
    expect("question 6", compact(), 6);
    put32(AT_COUNT, 2);
    put32(TABLE + 5 * 0 + 1, 4096);
    expect("one message", compact(), 15);
    expect("the image as it was", get32(8188), 77);
    expect("X", get32(AT_NEXT), 4106);
    image[0]++;
    expect("question 5", compact(), 5);
    image[0]--;
    length--;
    expect("question 1", compact(), 1);
}

/* ---- version 2.0.0 and the converter ---- */

static uint8_t target[16384];

/* Into a target of so many bytes, which were not zero; accepted, the list goes
 * on there. */
static uint32_t convert(size_t bytes)
{
    uint32_t number;

    memset(target, 0xEE, sizeof target);
    number = subject.convert(image, length, target, bytes);
    if (number != 0)
        return number;
    expect("behind the target", target[bytes], 0xEE);
    memcpy(image, target, bytes);
    length = bytes;
    return 0;
}

/* How many bytes of a stretch are not zero. */
static uint32_t not_zero(uint32_t from, uint32_t to)
{
    uint32_t count = 0;

    while (from < to)
        count += image[from++] != 0;
    return count;
}

/* Byte 1, in slot 3, is replaced; byte 3, in slot 0, has an empty note; byte 2,
 * in slot 1, is withdrawn; slot 2 is empty with a dirty offset. Of each place
 * that is no one's a byte or two are dirty. */
static void make_mixed(void)
{
    create(8192, 1, 4, 0);
    add(1, "first", 5, 1);
    add(3, NULL, 0, 1);
    add(2, "second", 6, 1);
    add(1, "longer", 6, 2);
    add(2, NULL, 0, 4);
    put32(8, 0xC0FFEE42u);
    put32(TABLE + 5 * 2 + 1, 0xDDDDDDDDu);
    put32(AT_LAST_PAGE, 77);
    image[60] = image[511] = image[892] = image[2047] = 1;
    image[TABLE + 20] = image[4095] = image[8191] = 1;
}

/* Byte 1's message stands at 4096, dead, then at 4119, byte 3's at 4105, byte
 * 2's at 4109, inactive. */
static void widening(void)
{
    static uint8_t before[8192];

    make_mixed();
    memcpy(before, image, 8192);
    expect("X before", get32(AT_NEXT), 4129);
    expect("convert", convert(8192), 0);
    expect("letters and version", memcmp(image, "BHTFv\2\0\0", 8), 0);
    expect("serial", get32(8), 0xC0FFEE42u);
    expect("header", memcmp(image + 12, before + 12, 40), 0);
    expect("scramble", memcmp(image + 512, before + 512, 380), 0);
    expect("X", get32(AT_NEXT), 4096 + 5 + 11);
    expect("M", get32(AT_LAST_PAGE), 0);
    expect("behind the header", not_zero(60, 512), 0);
    expect("behind the scramble", not_zero(892, 2048), 0);
    expect("slots", memcmp(image + TABLE, "\3\0\0\x10\0\2\0\0\0\0"
                           "\0\0\0\0\0\1\0\0\x10\5", 20), 0);
    expect("behind the table", not_zero(TABLE + 20, 4096), 0);
    expect("messages", memcmp(image + 4096, "a\0\0\0\0a\0\0\0\6longer", 16),
           0);
    expect("behind X", not_zero(4112, 8192), 0);
}

/* Modes 1 to 4, delete and compaction: headers of five bytes. */
static void messages_of_2(void)
{
    create(8192, 1, 4, 0);
    expect("convert", convert(8192), 0);
    expect("M without messages", get32(AT_LAST_PAGE), 0xFFFFFFFFu);
    expect("add", add(1, "fives", 5, 1), 0);
    expect("X", get32(AT_NEXT), 4106);
    expect("header", memcmp(image + 4096, "a\0\0\0\5fives", 10), 0);
    expect("replace in place", add(1, "abc", 3, 2), 0);
    expect("X", get32(AT_NEXT), 4106);
    expect("bytes", memcmp(image + 4096, "a\0\0\0\3abc\0\0", 10), 0);
    expect("replace", add(1, "four", 4, 2), 0);
    expect("X", get32(AT_NEXT), 4106 + 9);
    expect("old letter", image[4096], 'd');
    expect("append", add(1, "+3", 2, 3), 0);
    expect("X", get32(AT_NEXT), 4115 + 11);
    expect("bytes", memcmp(image + 4115, "a\0\0\0\6four+3", 11), 0);
    expect("note", add(2, NULL, 0, 1), 0);
    expect("X", get32(AT_NEXT), 4126 + 5);
    expect("note in place", add(1, NULL, 0, 2), 0);
    expect("version", memcmp(image + 5, "\2\0\0", 3), 0);
    expect("withdraw", add(1, NULL, 0, 4), 0);
    expect("delete", delete(1), 0);
    expect("compact", compact(), 0);
    expect("X", get32(AT_NEXT), 4096 + 5);
    expect("note's header", memcmp(image + 4096, "a\0\0\0\0", 5), 0);
    expect("version", memcmp(image + 5, "\2\0\0", 3), 0);
    expect("the rest of R", add(3, (char *)image, 4096 - 5 - 5 + 1, 1), 13);
    expect("one byte less", add(3, (char *)image, 4096 - 5 - 5, 1), 0);
    expect("X", get32(AT_NEXT), 8192);
}

static void versions_opened(void)
{
    static const struct opened {
        uint8_t version[3];
        uint32_t number;
    } opened[] = {
        { { 1, 0, 0 }, 0 }, { { 1, 0, 1 }, 0 }, { { 1, 0, 2 }, 0 },
        { { 1, 0, 3 }, 5 }, { { 1, 1, 0 }, 5 }, { { 2, 0, 0 }, 0 },
        { { 2, 0, 1 }, 5 }, { { 2, 0, 2 }, 5 }, { { 2, 1, 0 }, 5 },
        { { 3, 0, 0 }, 5 }, { { 0, 0, 0 }, 5 }, { { 0, 0, 2 }, 5 },
        { { 130, 0, 0 }, 5 }, { { 2, 0, 128 }, 5 }, { { 2, 128, 0 }, 5 },
    };
    uint32_t points;

    create(8192, 1, 4, 0);
    for (size_t i = 0; i < sizeof opened / sizeof *opened; i++) {
        memcpy(image + 5, opened[i].version, 3);
        expect("version", subject.count(image, length, &points),
               opened[i].number);
    }
    memcpy(image + 5, "\2\0\0", 3);
    for (int i = 0; i < 5; i++) {
        image[i] ^= 0x20;
        expect("other letters", subject.count(image, length, &points), 5);
        image[i] ^= 0x20;
    }
}

/* Back in version 1 there are the same points, and it is 1.0.2. */
static void there_and_back(void)
{
    make_mixed();
    image[7] = 0;
    expect("there", convert(12288), 0);
    expect("back", convert(8192), 0);
    expect("version", memcmp(image + 5, "\1\0\2", 3), 0);
    expect("X", get32(AT_NEXT), 4096 + 4 + 10);
    expect("messages", memcmp(image + 4096, "a\0\0\0a\0\0\6longer", 14), 0);
    expect("slots", memcmp(image + TABLE, "\3\0\0\x10\0\2\0\0\0\0"
                           "\0\0\0\0\0\1\0\0\x10\4", 20), 0);
    expect("C", get32(AT_COUNT), 3);
    expect("serial", get32(8), 0xC0FFEE42u);
    expect("behind X", not_zero(4110, 8192), 0);
}

/* A text that fills version 1's R but for a byte does not fit 2.0.0's; what is
 * refused goes on in the source. */
static void target_brim(void)
{
    static const char bytes[5000];

    create(8192, 1, 4, 0);
    expect("4092 bytes", add(1, bytes, 4092, 1), 0);
    expect("no room", convert(8192), 13);
    expect("version", image[5], 1);
    expect("replaced by 4091", add(1, bytes, 4091, 2), 0);
    expect("room", convert(8192), 0);
    expect("X", get32(AT_NEXT), 8192);
    expect("M", get32(AT_LAST_PAGE), 0);
    expect("a point more", add(2, NULL, 0, 1), 13);
    expect("without a message", add(2, NULL, 0, 3), 0);
    expect("the table alone is too small", convert(4096), 13);
    expect("back", convert(8192), 0);
    expect("X", get32(AT_NEXT), 8191);
    create(4096, 1, 4, 0);
    expect("a file without data area", convert(4096), 0);
    expect("X", get32(AT_NEXT), 4096);
    create(12288, 4, 257, 0);
    expect("a target below D", convert(4096), 13);
    expect("a target of D", convert(8192), 0);
}

/* 1 before 5, 5 before 6, 6 before 15, 15 before 13. */
static void convert_refused(void)
{
    create(12288, 4, 257, 0);
    put32(AT_COUNT, 1);
    expect("15 before 13", convert(4096), 15);
    put32(AT_COUNT, 258);
    expect("6 before 15", convert(4096), 6);
    image[6] = 1;
    expect("5 before 6", convert(4096), 5);
    expect("1 before 5", convert(4097), 1);
    length--;
    expect("1 of the source", convert(4096), 1);
    memset(target, 0xEE, sizeof target);
    length++;
    subject.convert(image, length, target, 12288);
    expect("a refused target", target[0] + target[12287], 2 * 0xEE);
    create(8192, 1, 4, 0);
    add(1, "P", 1, 1);
    add(2, "Q", 1, 1);
    put32(TABLE + 5 * 0 + 1, 4096);
    expect("two points on one message", convert(8192), 15);
}

static void target_lengths(void)
{
    static const size_t lengths[] = { 0, 1, 4095, 4097, 8191, 8193,
                                      1073741824u + PAGE };

    create(8192, 1, 4, 0);
    for (size_t i = 0; i < sizeof lengths / sizeof *lengths; i++)
        expect("a target that is no image's length",
               subject.convert(image, length, target, lengths[i]), 1);
}

/* ---- readings by column ---- */

static uint8_t out[16];

static uint32_t store(uint8_t name, const char *records, size_t size,
                      uint32_t width)
{
    return subject.store_columns(image, length, &name, 1,
                                 (const uint8_t *)records, size, width);
}

/* Into a slice of so many bytes 0xEE. */
static uint32_t read_back(uint8_t name, size_t out_len, uint32_t *bytes)
{
    memset(out, 0xEE, sizeof out);
    *bytes = 77;
    return subject.read_columns(image, length, &name, 1, out, out_len, bytes);
}

/* The slice is filled with these bytes alone. */
static void expect_read(const char *what, uint8_t name, size_t out_len,
                        const char *records, uint32_t size)
{
    uint32_t bytes, wrong = 0;

    expect(what, read_back(name, out_len, &bytes), 0);
    expect("  bytes", bytes, size);
    for (uint32_t i = 0; i < sizeof out; i++)
        wrong += out[i] != (i < size ? (uint8_t)records[i] : 0xEE);
    expect("  bytes of the slice that are wrong", wrong, 0);
}

/* A refused reading answers 0, and the slice is as it was. */
static void expect_unread(const char *what, uint8_t name, size_t out_len,
                          uint32_t number)
{
    uint32_t bytes, wrong = 0;

    expect(what, read_back(name, out_len, &bytes), number);
    expect("  no bytes", bytes, 0);
    for (uint32_t i = 0; i < sizeof out; i++)
        wrong += out[i] != 0xEE;
    expect("  bytes of the slice that changed", wrong, 0);
}

/* Six bytes by each width that divides them: in one place, all seven long. */
static void columns(void)
{
    static const struct by_width {
        uint32_t width;
        const char *stored;
    } by_width[] = {
        { 2, "\2acebdf" }, { 3, "\3adbecf" }, { 6, "\6abcdef" },
        { 1, "\1abcdef" },
    };

    create(8192, 1, 4, 0);
    for (int i = 0; i < 4; i++) {
        expect("store", store(1, "abcdef", 6, by_width[i].width), 0);
        expect("C", get32(AT_COUNT), 1);
        expect("X", get32(AT_NEXT), 4107);
        expect("header", get32(4096), 0x61000007u);
        expect("stored bytes",
               memcmp(image + 4100, by_width[i].stored, 7) != 0, 0);
        expect_read("read", 1, 6, "abcdef", 6);
        expect_read("into a longer slice", 1, 8, "abcdef", 6);
        expect_unread("into a shorter one", 1, 5, 19);
        expect_unread("into none", 1, 0, 19);
    }
}

/* The message is the width alone; the rest of the old one is zeroed. */
static void no_record(void)
{
    create(8192, 1, 4, 0);
    store(1, "abcdef", 6, 2);
    expect("store", store(1, NULL, 0, 64), 0);
    expect("header", get32(4096), 0x61000001u);
    expect("the width", image[4100], 64);
    expect("the rest", get32(4101) | get32(4103), 0);
    expect("X", get32(AT_NEXT), 4107);
    expect_read("read", 1, 0, "", 0);
    expect_read("into a slice", 1, 3, "", 0);
    expect("version", get32(4), 0x76010002u);
    image[7] = 0;
    expect("stored again", store(1, NULL, 0, 1), 0);
    expect("version 1.0.0 stays", get32(4), 0x76010000u);
}

/* What is no column: 19 by the stored bytes. */
static void no_columns(void)
{
    create(8192, 1, 4, 0);
    add(1, "\2abc", 4, 1);
    expect_unread("three bytes of width 2", 1, 16, 19);
    add(1, "\3abc", 4, 2);
    expect_read("one record of width 3", 1, 16, "abc", 3);
    add(1, "\100", 1, 2);
    expect_read("width 64", 1, 16, "", 0);
    add(1, "\101", 1, 2);
    expect_unread("width 65", 1, 16, 19);
    add(1, "\377", 1, 2);
    expect_unread("width 255", 1, 16, 19);
    add(1, "\0", 1, 2);
    expect_unread("width 0", 1, 16, 19);
    add(1, NULL, 0, 2);
    expect_unread("an empty note", 1, 16, 19);
    add(1, "\1a", 2, 2);
    add(1, NULL, 0, 4);
    expect_unread("withdrawn", 1, 16, 19);
    add(2, NULL, 0, 3);
    expect_unread("no message", 2, 16, 19);
}

/* When storing 1, 5, 6, 7, 19, then 10, 11 and 13; when reading 7, 14, 11, then
 * 19. */
static void columns_refused(void)
{
    static const uint32_t widths[] = { 0, 65, 256, 257, 0x80000001u };
    static const char bytes[5000];

    create(8192, 1, 4, 0);
    for (int i = 0; i < 5; i++)
        expect("width out of range", store(1, NULL, 0, widths[i]), 19);
    expect("six bytes of width 4", store(1, "abcdef", 6, 4), 19);
    expect("C", get32(AT_COUNT), 0);
    expect("7 before 19", store(0, "abc", 3, 2), 7);
    expect("4092 bytes", store(1, bytes, 4092, 1), 13);
    expect("4091 bytes", store(1, bytes, 4091, 1), 0);
    expect("X", get32(AT_NEXT), 8192);
    expect_unread("zeros", 0, 0, 7);
    expect_unread("absent", 2, 0, 14);
    image[4096] = 'x';
    expect_unread("11 before 19", 1, 0, 11);
    expect("19 before 11", store(1, "abc", 3, 2), 19);
    expect("11", store(1, "abc", 3, 3), 11);
    put32(AT_COUNT, 4);
    expect("19 before 10", store(2, "abc", 3, 2), 19);
    expect("10 before 13", store(2, "abc", 3, 3), 10);
    put32(AT_COUNT, 5);
    expect("6 before 19", store(1, "abc", 3, 2), 6);
    expect_unread("6", 1, 0, 6);
    image[0]++;
    expect("5 before 19", store(1, "abc", 3, 2), 5);
    expect_unread("5", 1, 0, 5);
    length--;
    expect("1 before 19", store(1, "abc", 3, 2), 1);
    expect_unread("1", 1, 0, 1);
}

/* ---- names in ranges ---- */

#define NUMBERS 5

static uint8_t numbers[4 * NUMBERS];

/* Ranges written "lowest", "highest", as long as the given K. */
static uint32_t select(const char *lowest, const char *highest, size_t k,
                       size_t list_len, uint32_t *found)
{
    memset(numbers, 0xEE, sizeof numbers);
    *found = 77;
    return subject.select(image, length, (const uint8_t *)lowest, k,
                          (const uint8_t *)highest, k, numbers, list_len,
                          found);
}

/* The list is these slots, and the bytes behind them are as they were. */
static void expect_selected(const char *what, const char *lowest,
                            const char *highest, size_t k,
                            const uint8_t *slots, uint32_t wanted)
{
    uint32_t found, wrong = 0;

    expect(what, select(lowest, highest, k, sizeof numbers, &found), 0);
    expect("  found", found, wanted);
    for (uint32_t i = 0; i < sizeof numbers; i++)
        wrong += numbers[i] != (i / 4 >= wanted ? 0xEE
                                : i % 4 == 3   ? slots[i / 4]
                                               : 0);
    expect("  bytes of the list that are wrong", wrong, 0);
}

/* A refused call answers 0, and the list is as it was. */
static void expect_unselected(const char *what, const char *lowest,
                              const char *highest, size_t k, size_t list_len,
                              uint32_t number)
{
    uint32_t found, wrong = 0;

    expect(what, select(lowest, highest, k, list_len, &found), number);
    expect("  none", found, 0);
    for (uint32_t i = 0; i < sizeof numbers; i++)
        wrong += numbers[i] != 0xEE;
    expect("  bytes of the list that changed", wrong, 0);
}

/* Of the table above: bytes 2, 3, 32, 1 in slots 0 to 3, then, without byte 1,
 * bytes 3 and 32 in slots 0 and 1, slot 2 empty, byte 2 in slot 3. */
static void ranges_of_one(void)
{
    static const uint8_t names[] = { 1, 2, 3, 32 };
    static const uint8_t all[] = { 0, 1, 2, 3 }, low[] = { 0, 1, 3 };
    static const uint8_t third[] = { 2 }, most[] = { 1, 2 };

    create(8192, 1, 4, 0);
    for (int i = 0; i < 4; i++)
        add(names[i], NULL, 0, 3);
    expect_selected("all", "\0", "\377", 1, all, 4);
    expect_selected("1 to 3", "\1", "\3", 1, low, 3);
    expect_selected("32", "\40", "\40", 1, third, 1);
    expect_selected("3 to 32", "\3", "\40", 1, most, 2);
    expect_selected("4 to 31", "\4", "\37", 1, NULL, 0);
    expect_selected("33", "\41", "\41", 1, NULL, 0);
    delete(1);
    expect_selected("all that are left", "\0", "\377", 1, low, 3);
    expect_selected("zeros", "\0", "\0", 1, NULL, 0);
    expect_selected("zeros and 1", "\0", "\1", 1, NULL, 0);
}

/* An opened image: A1, B1 and A9 in slots 0 to 2, slot 3 empty. */
static void ranges_of_two(void)
{
    static const uint8_t first[] = { 0 }, ones[] = { 0, 1 }, as[] = { 0, 2 };

    create(8192, 2, 4, 0);
    memcpy(image + TABLE, "A1", 2);
    memcpy(image + TABLE + 6, "B1", 2);
    memcpy(image + TABLE + 12, "A9", 2);
    expect_selected("A, 1 to 5", "A1", "A5", 2, first, 1);
    expect_selected("A or B, 1", "A1", "B1", 2, ones, 2);
    expect_selected("A, any", "A\0", "A\377", 2, as, 2);
    expect_selected("B, 2 to 9", "B2", "B9", 2, NULL, 0);
    expect_selected("C is 0 and yet", "A9", "A9", 2, as + 1, 1);
}

/* A name in the last slot of a table that ends with the image. */
static void last_of_all(void)
{
    static uint8_t many[4 * 256];
    uint32_t found = 77;

    create(4096, 4, 256, 0);
    expect("D", get32(AT_DATA), 4096);
    memcpy(image + 4096 - 8, "last", 4);
    expect("last slot", subject.select(image, length, (const uint8_t *)"l\0\0t",
                                       4, (const uint8_t *)"l\377\377t", 4,
                                       many, sizeof many, &found), 0);
    expect("  found", found, 1);
    expect("  slot", many[3], 255);
    expect("  bytes before and behind", many[2] | many[4], 0);
}

/* 1, 5, 6, then 22, then 16: 16 bytes hold four slot numbers. */
static void ranges_refused(void)
{
    const uint8_t one = 1;
    uint32_t found = 77;

    create(8192, 1, 4, 0);
    add(1, NULL, 0, 3);
    expect_unselected("a list of 15 bytes", "\0", "\377", 1, 15, 16);
    expect_unselected("none", "\0", "\377", 1, 0, 16);
    expect("a list of 16", select("\0", "\377", 1, 16, &found), 0);
    expect("  found", found, 1);
    expect_unselected("no range", "", "", 0, 20, 22);
    expect_unselected("two", "\0\0", "\1\1", 2, 20, 22);
    expect_unselected("2 to 1", "\2", "\1", 1, 20, 22);
    expect_unselected("22 before 16", "\2", "\1", 1, 15, 22);
    expect("one lowest, no highest",
           subject.select(image, length, &one, 1, &one, 0, numbers,
                          sizeof numbers, &found), 22);
    expect("one highest, no lowest",
           subject.select(image, length, &one, 0, &one, 1, numbers,
                          sizeof numbers, &found), 22);
    put32(AT_COUNT, 5);
    expect_unselected("6 before 22", "\2", "\1", 1, 0, 6);
    image[0]++;
    expect_unselected("5 before 22", "\2", "\1", 1, 0, 5);
    length--;
    expect_unselected("1 before 22", "\2", "\1", 1, 0, 1);
}

/* ---- epochs ---- */

/* A key of 6 bytes: a name of two, and an epoch. */
static const uint8_t *key_of(const char *name, uint32_t epoch)
{
    static uint8_t key[6];

    memcpy(key, name, 2);
    for (uint32_t i = 0; i < 4; i++)
        key[2 + i] = (uint8_t)(epoch >> (24 - 8 * i));
    return key;
}

static uint32_t add_at(const char *name, uint32_t epoch, const char *text,
                       uint32_t mode)
{
    return subject.add(image, length, key_of(name, epoch), 6,
                       (const uint8_t *)text, strlen(text), mode);
}

/* What is shown at t: epoch and text, NULL for no message. */
static void expect_shown(const char *what, const char *name, uint32_t t,
                         uint32_t epoch, const char *text)
{
    uint32_t shown = 77, at = 77, size = 77;
    uint32_t wanted = text == NULL ? 0 : (uint32_t)strlen(text);

    expect(what, subject.at_epoch(image, length, (const uint8_t *)name, 2, t,
                                  &shown, &at, &size), 0);
    expect("  epoch", shown, epoch);
    expect("  has a message", at != 0, text != NULL);
    expect("  its length", size, wanted);
    if (text != NULL && size == wanted)
        expect("  its text", memcmp(image + at, text, size) != 0, 0);
}

/* A refusal shows epoch 0 and no message. */
static void expect_hidden(const char *what, const char *name, size_t size,
                          uint32_t t, uint32_t number)
{
    uint32_t shown = 77, at = 77, bytes = 77;

    expect(what, subject.at_epoch(image, length, (const uint8_t *)name, size,
                                  t, &shown, &at, &bytes), number);
    expect("  nothing shown", shown | at | bytes, 0);
}

static void epochs(void)
{
    create(8192, 6, 8, 0);
    add_at("P7", 256, "later", 1);
    add_at("P7", 2, "two", 1);
    add_at("Q7", 4, "other", 1);
    add_at("P7", 5, "five", 1);
    add_at("P7", 0x80000000u, "", 3);
    expect_hidden("at 0", "P7", 2, 0, 14);
    expect_hidden("at 1", "P7", 2, 1, 14);
    expect_shown("at 2", "P7", 2, 2, "two");
    expect_shown("at 4", "P7", 4, 2, "two");
    expect_shown("at 5", "P7", 5, 5, "five");
    expect_shown("at 255", "P7", 255, 5, "five");
    expect_shown("at 256", "P7", 256, 256, "later");
    expect_shown("before the highest bit", "P7", 0x7FFFFFFFu, 256, "later");
    expect_shown("no message", "P7", 0x80000000u, 0x80000000u, NULL);
    expect_shown("at the last", "P7", 0xFFFFFFFFu, 0x80000000u, NULL);
    expect_hidden("another name before 4", "Q7", 2, 3, 14);
    expect_shown("another name", "Q7", 9, 4, "other");
    expect_hidden("no such name", "R7", 2, 9, 14);
    add_at("P7", 5, "", 4);
    expect_shown("withdrawn", "P7", 5, 5, NULL);
    add_at("P7", 5, "", 2);
    expect_shown("an empty note", "P7", 5, 5, "");
    add_at("P7", 0, "zero", 1);
    expect_shown("epoch 0", "P7", 1, 0, "zero");
    expect_hidden("empty slots are no entries", "\0\0", 2, 9, 14);
    add_at("\0\0", 3, "zeros", 1);
    expect_hidden("a name of zeros, before", "\0\0", 2, 2, 14);
    expect_shown("a name of zeros", "\0\0", 9, 3, "zeros");
}

/* An opened image: P7 at epoch 9 in slots 2 and 5, at 8 in slot 7; C is 0, and
 * no search comes by. The message of slot 2 goes bad. */
static void epochs_twice(void)
{
    static const uint32_t slots[][2] = { { 2, 9 }, { 5, 9 }, { 7, 8 } };

    create(8192, 6, 8, 0);
    for (uint32_t i = 0; i < 3; i++) {
        memcpy(image + TABLE + 10 * slots[i][0], key_of("P7", slots[i][1]), 6);
        put32(TABLE + 10 * slots[i][0] + 6, 4096 + 5 * i);
        put32(4096 + 5 * i, 0x61000001u);
        image[4096 + 5 * i + 4] = (uint8_t)('A' + i);
    }
    put32(AT_NEXT, 4096 + 15);
    expect_shown("the lowest slot of two", "P7", 9, 9, "A");
    expect_shown("the epoch before", "P7", 8, 8, "C");
    image[4096] = 'x';
    expect_hidden("11", "P7", 2, 9, 11);
    expect_shown("an older one is good", "P7", 8, 8, "C");
    put32(TABLE + 10 * 2 + 6, 0);
    expect_shown("no message, the lowest slot of two", "P7", 9, 9, NULL);
    image[TABLE + 10 * 2]++;
    expect_shown("the other slot", "P7", 9, 9, "B");
}

/* 1, 5, 6, then 23, then 7. */
static void epochs_refused(void)
{
    create(8192, 4, 8, 0);
    expect_hidden("K = 4", "", 0, 9, 23);
    expect_hidden("23 before 7", "P7", 2, 9, 23);
    put32(AT_COUNT, 9);
    expect_hidden("6 before 23", "", 0, 9, 6);
    create(8192, 5, 8, 0);
    expect_hidden("K = 5", "P", 1, 9, 14);
    expect_hidden("no name", "", 0, 9, 7);
    create(8192, 6, 8, 0);
    expect_hidden("one byte", "P7", 1, 9, 7);
    expect_hidden("three bytes", "P7\0", 3, 9, 7);
    expect_hidden("K bytes", "P7\0\0\0\11", 6, 9, 7);
    put32(AT_COUNT, 9);
    expect_hidden("6 before 7", "P7", 1, 9, 6);
    image[0]++;
    expect_hidden("5", "P7", 1, 9, 5);
    length--;
    expect_hidden("1", "P7", 1, 9, 1);
}

/* ---- the list of what changed ---- */

#define PAIRS 8

static uint8_t work[8192 + 1];
static uint8_t pairs[8 * PAIRS];

/* The next call's list: bytes that are no pair. */
static void clear_list(void)
{
    memset(pairs, 0xEE, sizeof pairs);
    memset(work, 0x77, sizeof work);
}

static uint32_t add_listed(uint8_t name, const char *text, size_t size,
                           uint32_t mode, size_t list_len, uint32_t *count)
{
    clear_list();
    return subject.add_listed(image, length, &name, 1, (const uint8_t *)text,
                              size, mode, work, length, pairs, list_len,
                              count);
}

static uint32_t delete_listed(uint8_t name, uint32_t *count)
{
    clear_list();
    return subject.remove_listed(image, length, &name, 1, work, length, pairs,
                                 sizeof pairs, count);
}

static uint32_t compact_listed(uint32_t *count)
{
    clear_list();
    return subject.compact_listed(image, length, work, length, pairs,
                                  sizeof pairs, count);
}

/* The list is these pairs, and the bytes behind them are as they were. */
static void expect_pairs(const char *what, uint32_t count,
                         const uint32_t (*want)[2], uint32_t wanted)
{
    uint32_t wrong = 0;

    expect(what, count, wanted);
    for (uint32_t i = 0; i < 4 * 2 * wanted; i++)
        wrong += pairs[i] !=
                 (uint8_t)(want[i / 8][i / 4 % 2] >> (24 - 8 * (i % 4)));
    for (uint32_t i = 4 * 2 * wanted; i < sizeof pairs; i++)
        wrong += pairs[i] != 0xEE;
    expect("  bytes of the list that are wrong", wrong, 0);
}

/* By value, byte for byte: C's last byte, X's last and M; of slot 3 the key and
 * a byte of the offset 0x1000; of the message the letter, and the length's last
 * byte with the text. */
static void changes_listed(void)
{
    static const uint32_t added[][2] = { { 23, 1 },   { 55, 5 },
                                         { 2063, 1 }, { 2066, 1 },
                                         { 4096, 1 }, { 4099, 2 } };
    static const uint32_t deleted[][2] = { { 23, 1 }, { 2063, 1 },
                                           { 2066, 1 }, { 4096, 1 } };
    static const uint32_t packed[][2] = { { 55, 5 }, { 4096, 1 }, { 4099, 2 } };
    static const uint32_t other[][2] = { { 4100, 1 } };
    uint32_t n;

    create(8192, 1, 4, 0);
    expect("add", add_listed(1, "P", 1, 1, sizeof pairs, &n), 0);
    expect_pairs("pairs of an add", n, added, 6);
    expect("replace", add_listed(1, "Q", 1, 2, 8, &n), 0);
    expect_pairs("pairs of a replace", n, other, 1);
    expect("replace by the same", add_listed(1, "Q", 1, 2, 8, &n), 0);
    expect_pairs("nothing changed", n, NULL, 0);
    expect("present", add_listed(1, "R", 1, 1, 8, &n), 9);
    expect_pairs("refused", n, NULL, 0);
    expect("delete", delete_listed(1, &n), 0);
    expect_pairs("pairs of a delete", n, deleted, 4);
    expect("delete again", delete_listed(1, &n), 14);
    expect_pairs("absent", n, NULL, 0);
    expect("compact", compact_listed(&n), 0);
    expect_pairs("pairs of a compaction", n, packed, 3);
    expect("compact again", compact_listed(&n), 0);
    expect_pairs("nothing dead", n, NULL, 0);
}

/* Six pairs take 48 bytes. */
static void list_too_short(void)
{
    static const uint32_t whole[][2] = { { 0, 8192 } };
    static const size_t sizes[] = { 8, 9, 40, 47 };
    uint32_t n;

    for (int i = 0; i < 4; i++) {
        create(8192, 1, 4, 0);
        expect("add", add_listed(1, "P", 1, 1, sizes[i], &n), 0);
        expect_pairs("pairs do not fit", n, whole, 1);
        expect("the point is there", get32(AT_COUNT), 1);
    }
    create(8192, 1, 4, 0);
    expect("add", add_listed(1, "P", 1, 1, 48, &n), 0);
    expect("pairs fit", n, 6);
}

/* 16 before 1; it changes nothing. */
static void slices_too_short(void)
{
    const uint8_t name = 1;
    uint32_t n = 77;

    create(8192, 1, 4, 0);
    expect("list of 7", add_listed(1, "P", 1, 1, 7, &n), 16);
    expect_pairs("no pairs", n, NULL, 0);
    expect("working slice of L - 1",
           subject.add_listed(image, length, &name, 1, NULL, 0, 1, work,
                              length - 1, pairs, sizeof pairs, &n), 16);
    expect("C", get32(AT_COUNT), 0);
    length--;
    expect("16 before 1",
           subject.remove_listed(image, length, &name, 1, work, length - 1,
                                 pairs, sizeof pairs, &n), 16);
    expect("16 before 1",
           subject.compact_listed(image, length, work, length, pairs, 7, &n),
           16);
    expect("1", compact_listed(&n), 1);
    expect_pairs("no pairs", n, NULL, 0);
}

/* ---- where two slices differ ---- */

static void expect_run(const char *what, const uint8_t *before,
                       size_t before_len, const uint8_t *after,
                       size_t after_len, size_t from, size_t at, size_t size)
{
    size_t told = 77;
    size_t first = subject.next_change(before, before_len, after, after_len,
                                       from, &told);

    expect(what, (uint32_t)(first == at), 1);
    expect("  its bytes", (uint32_t)(told == size), 1);
}

/* Bytes 1, 3 and 4 of six differ. */
static void runs_one_by_one(void)
{
    static const uint8_t a[] = { 1, 2, 3, 4, 5, 6 };
    static const uint8_t b[] = { 1, 9, 3, 8, 7, 6 };

    expect_run("the first run", a, 6, b, 6, 0, 1, 1);
    expect_run("the run at a place", a, 6, b, 6, 1, 1, 1);
    expect_run("the second run", a, 6, b, 6, 2, 3, 2);
    expect_run("the rest of a run", a, 6, b, 6, 4, 4, 1);
    expect_run("no run is left", a, 6, b, 6, 5, 6, 0);
    expect_run("from the end on", a, 6, b, 6, 6, 6, 0);
    expect_run("from beyond the end on", a, 6, b, 6, 7, 6, 0);
    expect_run("from the last number on", a, 6, b, 6, SIZE_MAX, 6, 0);
    expect_run("the other way round", b, 6, a, 6, 2, 3, 2);
    expect_run("a slice and itself", a, 6, a, 6, 0, 6, 0);
    expect_run("the first is shorter", a, 4, b, 6, 2, 3, 1);
    expect_run("the second is shorter", a, 6, b, 4, 2, 3, 1);
    expect_run("what only one has", a, 1, b, 6, 0, 1, 0);
    expect_run("from beyond the shorter on", a, 6, b, 3, 4, 3, 0);
    expect_run("an empty slice", NULL, 0, b, 6, 0, 0, 0);
    expect_run("two empty slices", NULL, 0, NULL, 0, 3, 0, 0);
}

/* One byte after the other of 200 differs: at each place of a block, before
 * it, behind it and at the end. */
static void runs_at_each_place(void)
{
    static uint8_t a[200], b[200];
    uint32_t wrong = 0;
    size_t size;

    for (size_t place = 0; place < 200; place++) {
        b[place] = 1;
        for (size_t from = 0; from <= 200; from++)
            for (size_t end = 190; end <= 200; end++) {
                size_t none = from > place || place >= end;
                size_t at = subject.next_change(a, end, b, 200, from, &size);

                wrong += at != (none ? end : place) || size != !none;
            }
        b[place] = 0;
    }
    expect("wrong runs of one byte", wrong, 0);
}

/* ---- the journal, and recovery ---- */

static uint8_t journal[100];

/* So many bytes, the mark 0, the others 0xEE. */
static void clear_journal(size_t journal_len)
{
    memset(journal, 0xEE, sizeof journal);
    if (journal_len > 0)
        journal[journal_len - 1] = 0;
}

static uint32_t add_journaled(const char *text, size_t size, uint32_t mode,
                              size_t journal_len)
{
    const uint8_t name = 1;

    return subject.add_journaled(image, length, &name, 1,
                                 (const uint8_t *)text, size, mode, work,
                                 length, journal, journal_len);
}

static uint32_t recover(size_t journal_len)
{
    return subject.recover(image, length, journal, journal_len);
}

/* The journal begins so, and then has bytes 0xEE up to the mark. */
static void expect_journal(const char *what, const uint8_t *want, size_t size,
                           size_t journal_len, uint8_t mark)
{
    uint32_t wrong = memcmp(journal, want, size) != 0;

    for (size_t i = size; i + 1 < journal_len; i++)
        wrong += journal[i] != 0xEE;
    wrong += journal_len > size && journal[journal_len - 1] != mark;
    for (size_t i = journal_len; i < sizeof journal; i++)
        wrong += journal[i] != 0xEE;
    expect(what, wrong, 0);
}

/* Of byte 1 with the text P: six stretches of 11 bytes. */
static const uint8_t added[] = {
    0,    0, 0,    6, 0, 0,  0,    23, 0, 0,  0,    1, 0, 0, 0,    55,
    0,    0, 0,    5, 0, 0,  0x08, 15, 0, 0,  0,    1, 0, 0, 0x08, 18,
    0,    0, 0,    1, 0, 0,  0x10, 0,  0, 0,  0,    1, 0, 0, 0x10, 3,
    0,    0, 0,    2, 1, 5,  0,    0,  0, 0,  1, 0x10, 'a', 1, 'P'
};

static void journal_written(void)
{
    static const size_t sizes[] = { 64, 65, 100 };

    expect("content", sizeof added, 63);
    for (int i = 0; i < 3; i++) {
        create(8192, 1, 4, 0);
        clear_journal(sizes[i]);
        expect("add", add_journaled("P", 1, 1, sizes[i]), 0);
        expect("C", get32(AT_COUNT), 1);
        expect("X", get32(AT_NEXT), 4101);
        expect_journal("journal of an add", added, sizeof added, sizes[i], 0);
    }
    clear_journal(sizeof journal);
    expect("present", add_journaled("P", 1, 1, sizeof journal), 9);
    expect_journal("refused", added, 0, sizeof journal, 0);
}

/* 17 after the other questions; the image and the journal stay. */
static void journal_refused(void)
{
    static const size_t sizes[] = { 0, 1, 4, 63 };
    const uint8_t name = 2;

    create(8192, 1, 4, 0);
    for (int i = 0; i < 4; i++) {
        clear_journal(sizes[i]);
        expect("too short", add_journaled("P", 1, 1, sizes[i]), 17);
        expect_journal("too short: as it was", added, 0, sizes[i], 0);
    }
    clear_journal(64);
    journal[63] = 1;
    expect("mark 1", add_journaled("P", 1, 1, 64), 17);
    journal[63] = 0xA5;
    expect("mark 0xA5", add_journaled("P", 1, 1, 64), 17);
    expect_journal("marked: as it was", added, 0, 64, 0xA5);
    expect("8 before 17", add_journaled("P", 1, 5, 0), 8);
    expect("C", get32(AT_COUNT), 0);
    expect("14 before 17",
           subject.remove_journaled(image, length, &name, 1, work, length,
                                    journal, 0), 14);
    expect("16 before 14",
           subject.remove_journaled(image, length, &name, 1, work, length - 1,
                                    journal, 0), 16);
    put32(AT_COUNT, 5);
    expect("6 before 17",
           subject.compact_journaled(image, length, work, length, journal, 0),
           6);
    length--;
    expect("16 before 1",
           subject.compact_journaled(image, length, work, length - 1, journal,
                                     0), 16);
}

/* A call that changes nothing writes the count 0. */
static void journal_empty(void)
{
    static const uint8_t none[] = { 0, 0, 0, 0 };

    create(8192, 1, 4, 0);
    clear_journal(4);
    expect("no room for the mark",
           subject.compact_journaled(image, length, work, length, journal, 4),
           17);
    clear_journal(5);
    expect("nothing dead",
           subject.compact_journaled(image, length, work, length, journal, 5),
           0);
    expect_journal("the count 0", none, 4, 5, 0);
}

/* From each other mark the image stays; from 0xA5 it is the one after. */
static void recovering(void)
{
    create(8192, 1, 4, 0);
    for (uint32_t mark = 0; mark < 256; mark++) {
        clear_journal(70);
        memcpy(journal, added, sizeof added);
        journal[69] = (uint8_t)mark;
        expect("recover", recover(70), 0);
        expect("C", get32(AT_COUNT), mark >= 0xA5);
        expect_journal("but for the mark as it was", added, sizeof added, 70,
                       0);
    }
    expect("X", get32(AT_NEXT), 4101);
    expect("M", get32(AT_LAST_PAGE), 0);
    expect("slot 3", key_in(3), 1);
    expect("its offset", get32(TABLE + 16), 4096);
    expect("message", get32(4096), 0x61000001u);
    expect("text", image[4100], 'P');
}

/* A marked journal with one number of its content changed: 18, and nothing
 * changes. */
static void expect_18(const char *what, size_t at, uint8_t value,
                      size_t journal_len)
{
    uint8_t kept[sizeof journal];

    clear_journal(journal_len);
    memcpy(journal, added, sizeof added);
    journal[at] = value;
    journal[journal_len - 1] = 0xA5;
    memcpy(kept, journal, sizeof kept);
    expect(what, recover(journal_len), 18);
    expect("  the journal", memcmp(journal, kept, sizeof kept) != 0, 0);
    expect("  C", get32(AT_COUNT), 0);
}

static void not_recovered(void)
{
    create(8192, 1, 4, 0);
    expect("empty", recover(0), 18);
    expect_18("content reaches the mark", 0, 0, 63);
    expect_18("no room for the count", 0, 0, 4);
    expect_18("count beyond the mark", 3, 12, 100);
    expect_18("count that overflows", 0, 0x20, 100);
    expect_18("a length beyond the mark", 51, 3, 64);
    expect_18("a pair leaves the image", 46, 0x20, 100);
    expect_18("a pair in the last one", 15, 23, 100);
    expect_18("a pair before the last one", 22, 0, 100);
    clear_journal(100);
    memcpy(journal, added, sizeof added);
    journal[99] = 0xA5;
    expect("whole", recover(100), 0);
    expect("C", get32(AT_COUNT), 1);
    length = 4096 + 5;
    journal[99] = 0xA5;
    expect("no other question", recover(100), 0);
    length--;
    journal[99] = 0xA5;
    expect("a byte less", recover(100), 18);
}

/* ---- the generator ---- */

/* Powers of the multiplier and their sums, by another route than one step
 * after the other: state(n) = seed * a^n + c * (1 + a + .. + a^(n-1)). */
static uint32_t jump(uint32_t seed, uint32_t n)
{
    uint32_t power = 1, sum = 0;

    for (uint32_t i = 0; i < n; i++) {
        sum += power;
        power *= 1664525u;
    }
    return seed * power + 1013904223u * sum;
}

static void generator(void)
{
    static const uint32_t seeds[] = { 0, 1, 12345, 0x80000000u, 0xFFFFFFFFu };

    for (size_t s = 0; s < sizeof seeds / sizeof *seeds; s++) {
        create(8192, 1, 4, seeds[s]);
        for (uint32_t i = 0; i < 95; i++)
            expect("scramble number", get32(SCRAMBLE + 4 * i),
                   jump(seeds[s], i + 1));
        expect("behind the scramble", get32(SCRAMBLE + 4 * 95), 0);
    }
}

int main(void)
{
    image = malloc(IMAGE_ROOM);
    if (image == NULL)
        return 2;
    data_offsets();
    default_slots();
    last_pages();
    seed_0_hashes();
    four_slots();
    three_slots();
    just_fits();
    replacing();
    key_of_zeros();
    lister_example();
    notes();
    no_room_for_notes();
    space_again();
    packing();
    nothing_dead();
    unsound();
    widening();
    messages_of_2();
    versions_opened();
    there_and_back();
    target_brim();
    convert_refused();
    target_lengths();
    columns();
    no_record();
    no_columns();
    columns_refused();
    ranges_of_one();
    ranges_of_two();
    last_of_all();
    ranges_refused();
    epochs();
    epochs_twice();
    epochs_refused();
    changes_listed();
    list_too_short();
    slices_too_short();
    runs_one_by_one();
    runs_at_each_place();
    journal_written();
    journal_refused();
    journal_empty();
    recovering();
    not_recovered();
    generator();
    free(image);
    printf("%u passed, %u failed\n", passed, failed);
    return failed != 0;
}
