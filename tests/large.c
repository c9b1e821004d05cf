/* Images and tables at the limits: 1 GiB, 1,048,576 slots, and messages of
 * 16,777,215 bytes, which only images beyond the old limit can hold; their
 * compaction and conversion; longer ones in version 2.0.0, up to one of
 * 900,000,000 bytes, which is too long for version 1; as many readings by column as fit one; what changed in the last
 * bytes, listed and by way of a journal; two points on one message among many;
 * names in ranges, and epochs, among 1,048,576 slots; growth into as many, and a
 * sum over the old image's messages that does not fit 32 bits.
 * Ends with "N passed, M failed". Takes some 2.2 GiB of memory. */
#define _GNU_SOURCE

#include "calls.h"
#include "reference/plain.h"

#include <stdio.h>
#include <stdlib.h>
#include <string.h>
#include <sys/mman.h>
#include <unistd.h>

#define PAGE 4096u
#define GIB 1073741824u
#define MIB64 67108864u
#define SLOTS_MAX 1048576u
#define MESSAGE_MAX 16777215u
#define HEAD 4u
#define LONG_HEAD 5u /* of version 2.0.0 */
#define LONG_TEXT 900000000u
#define TABLE 2048u

static uint8_t *image; /* room for an image of 1 GiB and a page */
static uint8_t *texts; /* text i is MESSAGE_MAX + 1 bytes from byte i on */
static unsigned passed, failed;

static void expect(const char *what, uint32_t got, uint32_t wanted)
{
    if (got == wanted) {
        passed++;
        return;
    }
    failed++;
    printf("FAILED: %s: %u, not %u\n", what, got, wanted);
}

static void *map(size_t size)
{
    void *at = mmap(NULL, size, PROT_READ | PROT_WRITE,
                    MAP_PRIVATE | MAP_ANONYMOUS | MAP_NORESERVE, -1, 0);

    if (at == MAP_FAILED) {
        fputs("no memory\n", stderr);
        exit(2);
    }
    return at;
}

static uint32_t field(uint32_t at)
{
    return (uint32_t)image[at] << 24 | (uint32_t)image[at + 1] << 16 |
           (uint32_t)image[at + 2] << 8 | image[at + 3];
}

static void set_field(uint32_t at, uint32_t value)
{
    for (int i = 0; i < 4; i++)
        image[at + i] = (uint8_t)(value >> (24 - 8 * i));
}

static uint32_t add(uint32_t length, const char *name, const uint8_t *data,
                    uint32_t size, uint32_t mode)
{
    return subject.add(image, length, (const uint8_t *)name, strlen(name),
                       data, size, mode);
}

/* Is the name's message these bytes, at that offset? */
static void expect_text(const char *what, uint32_t length, const char *name,
                        uint32_t offset, const uint8_t *data, uint32_t size)
{
    uint32_t at = 0, got = 0;
    uint32_t number = subject.lookup(image, length, (const uint8_t *)name,
                                     strlen(name), &at, &got);

    expect(what, number == 0 && at == offset + HEAD && got == size &&
                     memcmp(image + at, data, size) == 0, 1);
}

static uint32_t count(size_t length)
{
    uint32_t points = 0;
    uint32_t number = subject.count(image, length, &points);

    return number == 0 ? points : 1000000000u + number;
}

static void expect_sound(const char *what, size_t length)
{
    uint32_t verdict = 9, slot = 9;
    uint32_t number = subject.check(image, length, &verdict, &slot);

    expect(what, number == 0 && verdict == 0, 1);
}

/* ---- questions 1 to 4 and 6 ---- */

/* An accepted create: D, X and M. */
static void created(const char *what, uint32_t length, uint32_t key_size,
                    uint32_t slots, uint32_t data)
{
    expect(what, subject.create(image, length, key_size, slots, 0), 0);
    expect("  N", field(16), slots);
    expect("  D", field(48), data);
    expect("  X", field(52), data);
    expect("  M", field(56), 0xFFFFFFFFu);
    expect("  its last byte", image[length - 1], 0);
    expect("  count", count(length), 0);
}

static void test_questions(void)
{
    expect("a page more than 1 GiB",
           subject.create(image, (size_t)GIB + PAGE, 1, 4, 0), 1);
    expect("K of 33", subject.create(image, GIB, 33, SLOTS_MAX + 1, 0), 2);
    expect("a slot more than 1,048,576",
           subject.create(image, GIB, 1, SLOTS_MAX + 1, 0), 3);
    expect("refused creates write nothing", field(0), 0);
    image[GIB - 1] = 7;
    /* 2,048 + 1,048,576 x 5 is 1,280.5 pages, 2,048 + 1,048,576 x 36 is
     * 9,216.5 */
    created("1 GiB, K = 1", GIB, 1, SLOTS_MAX, 1281 * PAGE);
    expect("count of a page more", count((size_t)GIB + PAGE), 1000000001u);
    created("1 GiB, K = 32", GIB, 32, SLOTS_MAX, 9217 * PAGE);
    expect("the table alone",
           subject.create(image, 9217 * PAGE, 32, SLOTS_MAX, 0), 0);
    expect("a page less",
           subject.create(image, 9216 * PAGE, 32, SLOTS_MAX, 0), 4);
    set_field(16, SLOTS_MAX + 1);
    expect("question 6, N", count(9217 * PAGE), 1000000006u);
    set_field(16, SLOTS_MAX);
    set_field(20, SLOTS_MAX);
    expect("question 6, C = N", count(9217 * PAGE), SLOTS_MAX);
}

/* ---- question 12, on an image of 64 MiB ---- */

static uint8_t *before; /* what an accepted call left */

static void keep(void)
{
    memcpy(before, image, MIB64);
}

static void refused(const char *what, uint32_t number, uint32_t wanted)
{
    expect(what, number, wanted);
    expect("  the image as it was", memcmp(before, image, MIB64) == 0, 1);
}

static void expect_space(const char *what, uint32_t used)
{
    expect(what, field(52), field(48) + used);
    expect("  M", field(56), (used - 1) / PAGE);
}

static int are_zero(const uint8_t *bytes, uint32_t size)
{
    return bytes[0] == 0 && memcmp(bytes, bytes + 1, size - 1) == 0;
}

static void test_longest_message(void)
{
    const uint32_t space = HEAD + MESSAGE_MAX;
    const uint32_t data = PAGE;

    before = map(MIB64);
    created("64 MiB", MIB64, 4, 16, data);
    keep();
    refused("16,777,216 bytes", add(MIB64, "AAAA", texts, MESSAGE_MAX + 1, 1),
            12);
    expect("16,777,215 bytes", add(MIB64, "AAAA", texts, MESSAGE_MAX, 1), 0);
    expect("  its header", field(data), 'a' * 16777216u + MESSAGE_MAX);
    expect_space("  X", space);
    expect_text("  its bytes", MIB64, "AAAA", data, texts, MESSAGE_MAX);
    keep();
    refused("a byte appended", add(MIB64, "AAAA", texts, 1, 3), 12);
    refused("16,777,216 bytes in its place",
            add(MIB64, "AAAA", texts, MESSAGE_MAX + 1, 2), 12);
    refused("nothing appended", add(MIB64, "AAAA", texts, 0, 3), 0);
    expect("withdrawn, with 16,777,216 bytes",
           add(MIB64, "AAAA", texts, MESSAGE_MAX + 1, 4), 0);
    expect("  its letter", image[data], 'd');
    expect("  X", field(52), data + space);
    expect("as many others in its place",
           add(MIB64, "AAAA", texts + 1, MESSAGE_MAX, 2), 0);
    expect_space("  X", space);
    expect_text("  its bytes", MIB64, "AAAA", data, texts + 1, MESSAGE_MAX);
    expect("one less", add(MIB64, "AAAA", texts + 2, MESSAGE_MAX - 1, 2), 0);
    expect_text("  its bytes", MIB64, "AAAA", data, texts + 2,
                MESSAGE_MAX - 1);
    expect("  the last byte", image[data + HEAD + MESSAGE_MAX - 1], 0);
    expect("a byte appended now",
           add(MIB64, "AAAA", texts + 2 + MESSAGE_MAX - 1, 1, 3), 0);
    expect_space("  X", 2 * space);
    expect_text("  its bytes", MIB64, "AAAA", data + space, texts + 2,
                MESSAGE_MAX);
    expect("  the old letter", image[data], 'd');
    expect("half and half", add(MIB64, "BBBB", texts, 8388608, 1), 0);
    keep();
    refused("the other half and a byte",
            add(MIB64, "BBBB", texts + 8388608, 8388608, 3), 12);
    expect("the other half",
           add(MIB64, "BBBB", texts + 8388608, 8388607, 3), 0);
    expect_text("  its bytes", MIB64, "BBBB",
                data + 2 * space + HEAD + 8388608, texts, MESSAGE_MAX);
    keep();
    refused("no space for another", add(MIB64, "CCCC", texts, MESSAGE_MAX, 1),
            13);
    expect("an empty note in its place", add(MIB64, "AAAA", texts, 0, 2), 0);
    expect_text("  no bytes", MIB64, "AAAA", data + space, texts, 0);
    expect("  the old bytes",
           are_zero(image + data + space + HEAD, MESSAGE_MAX), 1);
    expect("  those behind them", image[data + 2 * space], 'd');
    expect_sound("sound", MIB64);
    munmap(before, MIB64);
}

/* ---- texts longer than version 1 has, in version 2.0.0 ---- */

/* The image becomes its conversion into a slice of as many bytes. */
static uint32_t convert(uint32_t length)
{
    uint8_t *to = map(length);
    uint32_t number = subject.convert(image, length, to, length);

    if (number == 0)
        memcpy(image, to, length);
    munmap(to, length);
    return number;
}

/* Is the name's message in version 2.0.0 these bytes, at that offset? */
static void expect_long(const char *what, uint32_t length, const char *name,
                        uint32_t offset, const uint8_t *data, uint32_t size)
{
    expect_text(what, length, name, offset + LONG_HEAD - HEAD, data, size);
    expect("  its letter", image[offset], 'a');
    expect("  its length", field(offset + 1), size);
}

static void test_longer_message(void)
{
    const uint32_t data = PAGE, space = LONG_HEAD + MESSAGE_MAX;

    before = map(MIB64);
    created("64 MiB for 2.0.0", MIB64, 4, 16, data);
    expect("converted", convert(MIB64), 0);
    expect("16,777,215 bytes", add(MIB64, "AAAA", texts, MESSAGE_MAX, 1), 0);
    expect_long("  its bytes", MIB64, "AAAA", data, texts, MESSAGE_MAX);
    expect_space("  X", space);
    expect("narrowed", convert(MIB64), 0);
    expect("  its header", field(data), 'a' * 16777216u + MESSAGE_MAX);
    expect_text("  its bytes", MIB64, "AAAA", data, texts, MESSAGE_MAX);
    keep();
    refused("a byte more in version 1",
            add(MIB64, "AAAA", texts, MESSAGE_MAX + 1, 2), 12);
    expect("widened", convert(MIB64), 0);
    expect_long("  its bytes", MIB64, "AAAA", data, texts, MESSAGE_MAX);
    expect("a byte appended", add(MIB64, "AAAA", texts + MESSAGE_MAX, 1, 3),
           0);
    expect_long("  its bytes", MIB64, "AAAA", data + space, texts,
                MESSAGE_MAX + 1);
    expect_space("  X", 2 * space + 1);
    keep();
    refused("too long for version 1", convert(MIB64), 20);
    refused("20 before 13",
            subject.convert(image, MIB64, texts, PAGE), 20);
    expect("compacted", subject.compact(image, MIB64), 0);
    expect_long("  its bytes", MIB64, "AAAA", data, texts, MESSAGE_MAX + 1);
    expect_space("  X", space + 1);
    expect("another in its place",
           add(MIB64, "AAAA", texts + 1, MESSAGE_MAX + 1, 2), 0);
    expect_long("  its bytes", MIB64, "AAAA", data, texts + 1,
                MESSAGE_MAX + 1);
    expect("half of it again",
           add(MIB64, "AAAA", texts, MESSAGE_MAX / 2, 3), 0);
    expect("  its length", field(data + space + 2),
           MESSAGE_MAX + 1 + MESSAGE_MAX / 2);
    expect_sound("  sound", MIB64);
    expect("withdrawn", add(MIB64, "AAAA", NULL, 0, 4), 0);
    expect("not too long without it", convert(MIB64), 0);
    expect("  X", field(52), data);
    munmap(before, MIB64);
}

/* The texts again and again, in as much memory as they take once. */
static uint8_t *repeated(size_t size)
{
    const size_t piece = 16777216;
    int file = memfd_create("texts", 0);
    uint8_t *at = map(size + piece);

    if (file < 0 || write(file, texts, piece) != (ssize_t)piece)
        return NULL;
    for (size_t i = 0; i < size; i += piece)
        if (mmap(at + i, piece, PROT_READ, MAP_SHARED | MAP_FIXED, file, 0) ==
            MAP_FAILED)
            return NULL;
    close(file);
    return at;
}

static void test_longest_of_2(void)
{
    uint8_t *text = repeated(LONG_TEXT + 1);
    uint8_t *to = map(GIB);
    const uint32_t rest = GIB - PAGE - 2 * LONG_HEAD - LONG_TEXT;
    uint32_t at = 0, size = 0;

    if (text == NULL) {
        expect("memory for a long text", 0, 1);
        return;
    }
    subject.create(to, GIB, 4, 16, 0);
    expect("1 GiB of 2.0.0", subject.convert(to, GIB, image, GIB), 0);
    madvise(to, GIB, MADV_DONTNEED);
    expect("1,073,741,824 bytes", add(GIB, "AAAA", text, GIB, 1), 12);
    expect("1,073,741,823 bytes", add(GIB, "AAAA", text, GIB - 1, 1), 13);
    expect("900,000,000 bytes", add(GIB, "AAAA", text, LONG_TEXT, 1), 0);
    expect_long("  its bytes", GIB, "AAAA", PAGE, text, LONG_TEXT);
    expect("  X", field(52), PAGE + LONG_HEAD + LONG_TEXT);
    expect("  M", field(56), (LONG_HEAD + LONG_TEXT - 1) / PAGE);
    expect("as much again appended", add(GIB, "AAAA", text, LONG_TEXT, 3), 12);
    expect("up to 1 GiB appended",
           add(GIB, "AAAA", text, GIB - 1 - LONG_TEXT, 3), 13);
    expect("a byte too many behind it", add(GIB, "BBBB", text, rest + 1, 1),
           13);
    expect("up to the last byte", add(GIB, "BBBB", text, rest, 1), 0);
    expect_long("  its bytes", GIB, "BBBB", PAGE + LONG_HEAD + LONG_TEXT, text,
                rest);
    expect_sound("  sound", GIB);
    expect("too long for version 1", subject.convert(image, GIB, to, GIB), 20);
    expect("  the target", are_zero(to, GIB / 4), 1);
    expect("withdrawn", add(GIB, "AAAA", NULL, 0, 4), 0);
    expect("too long for version 1, the other",
           subject.convert(image, GIB, to, GIB), 20);
    expect("deleted", subject.remove(image, GIB, (const uint8_t *)"BBBB", 4),
           0);
    expect("900,000,000 bytes in their place",
           add(GIB, "AAAA", text + 1, LONG_TEXT, 2), 0);
    expect("  looked up", subject.lookup(image, GIB, (const uint8_t *)"AAAA",
                                         4, &at, &size), 0);
    expect("  its bytes",
           size == LONG_TEXT && memcmp(image + at, text + 1, size) == 0, 1);
    expect("  X", field(52), GIB);
    munmap(text, LONG_TEXT + 1 + 16777216);
    munmap(to, GIB);
    madvise(image, GIB, MADV_DONTNEED);
}

/* ---- as many readings by column as a message holds ---- */

static uint32_t store(const char *name, uint32_t size, uint32_t width)
{
    return subject.store_columns(image, MIB64, (const uint8_t *)name, 4, texts,
                                 size, width);
}

/* Is what is stored from an offset on the columns, and what is read the
 * records? */
static void expect_columns(const char *what, const char *name, uint32_t at,
                           uint32_t size, uint32_t width)
{
    uint32_t count = size / width, wrong = image[at + HEAD] != width;
    uint8_t *out = map(size + 1);
    uint32_t bytes = 0;
    const uint8_t *stored = image + at + HEAD + 1;

    for (uint32_t i = 0; i < size; i++)
        wrong += stored[i % width * count + i / width] != texts[i];
    expect(what, wrong, 0);
    expect("  a slice a byte too short",
           subject.read_columns(image, MIB64, (const uint8_t *)name, 4, out,
                                size - 1, &bytes), 19);
    out[size] = 7;
    expect("  read",
           subject.read_columns(image, MIB64, (const uint8_t *)name, 4, out,
                                size + 1, &bytes), 0);
    expect("  bytes", bytes, size);
    expect("  records", memcmp(out, texts, size) == 0, 1);
    expect("  the byte behind them", out[size], 7);
    munmap(out, size + 1);
}

/* 16,777,214 is 47 x 356,962, 16,777,152 is 64 x 262,143. */
static void test_longest_columns(void)
{
    const uint32_t space = HEAD + MESSAGE_MAX, most = MESSAGE_MAX - 1;

    before = map(MIB64);
    created("64 MiB for columns", MIB64, 4, 16, PAGE);
    keep();
    refused("16,777,215 records of a byte", store("AAAA", MESSAGE_MAX, 1), 12);
    refused("16,777,216 bytes of width 64",
            store("AAAA", MESSAGE_MAX + 1, 64), 12);
    expect("16,777,214 bytes of width 47", store("AAAA", most, 47), 0);
    expect("  its header", field(PAGE), 'a' * 16777216u + MESSAGE_MAX);
    expect_space("  X", space);
    expect_columns("  its columns", "AAAA", PAGE, most, 47);
    expect("of width 64 in its place", store("AAAA", 16777152, 64), 0);
    expect_space("  X", space);
    expect_columns("  its columns", "AAAA", PAGE, 16777152, 64);
    expect("  the rest of the old bytes",
           are_zero(image + PAGE + HEAD + 16777153, 62), 1);
    expect("of width 2", store("BBBB", most, 2), 0);
    expect_columns("  its columns", "BBBB", PAGE + space, most, 2);
    expect("of width 1", store("CCCC", most, 1), 0);
    expect_columns("  its columns", "CCCC", PAGE + 2 * space, most, 1);
    keep();
    refused("no space for another", store("DDDD", most, 1), 13);
    expect_sound("sound", MIB64);
    munmap(before, MIB64);
}

/* ---- messages up to the last byte of 1 GiB ---- */

static const char *name_of(uint32_t i)
{
    static char name[5] = "    ";

    name[2] = (char)('!' + i / 64);
    name[3] = (char)('!' + i % 64);
    return name;
}

/* The longest messages, all but every third of them and the last, into a target
 * that has not a page too much. */
static void widen_packed(uint32_t whole, uint32_t messages)
{
    const uint32_t space = LONG_HEAD + MESSAGE_MAX;
    const uint32_t end = PAGE + messages * space;
    const size_t length = (end + PAGE - 1) / PAGE * (size_t)PAGE;
    uint8_t *to = map(length), *from = image;
    uint32_t kept = 0;

    expect("a page too few", subject.convert(image, GIB, to, length - PAGE),
           13);
    expect("  the target", are_zero(to, PAGE), 1);
    memset(to + end, 7, length - end);
    expect("widen 1 GiB", subject.convert(image, GIB, to, length), 0);
    image = to;
    for (uint32_t i = 0; i < whole; i++)
        if (i % 3 != 1)
            expect_long("  a text", (uint32_t)length, name_of(i),
                        PAGE + kept++ * space, texts + i, MESSAGE_MAX);
    expect("  X", field(52), end);
    expect("  zeros behind it",
           end == length || are_zero(image + end, (uint32_t)length - end), 1);
    expect_sound("  sound", length);
    image = from;
    munmap(to, length);
}

/* Every third of the longest messages goes; then they are moved down. */
static void pack_full_image(uint32_t whole)
{
    const uint32_t space = HEAD + MESSAGE_MAX, data = PAGE;
    uint32_t kept = 0;

    for (uint32_t i = 1; i < whole; i += 3)
        subject.remove(image, GIB, (const uint8_t *)name_of(i), 4);
    expect("compact 1 GiB", subject.compact(image, GIB), 0);
    for (uint32_t i = 0; i < whole; i++)
        if (i % 3 != 1)
            expect_text("  a text", GIB, name_of(i), data + kept++ * space,
                        texts + i, MESSAGE_MAX);
    expect("  X", field(52), data + kept * space);
    expect("  M", field(56), (kept * space - 1) / PAGE);
    expect("  zeros behind it",
           are_zero(image + data + kept * space, GIB - data - kept * space),
           1);
    expect("  count", count(GIB), kept + 1);
    expect_sound("  sound", GIB);
    expect("  its space again", add(GIB, "last", texts, MESSAGE_MAX, 1), 0);
    expect_text("  its bytes", GIB, "last", data + kept * space, texts,
                MESSAGE_MAX);
    widen_packed(whole, kept + 1);
}

static uint32_t number_at(const uint8_t *at)
{
    return (uint32_t)at[0] << 24 | (uint32_t)at[1] << 16 |
           (uint32_t)at[2] << 8 | at[3];
}

static void expect_pair(const char *what, const uint8_t *pair, uint32_t at,
                        uint32_t size)
{
    expect(what, number_at(pair), at);
    expect("  its length", number_at(pair + 4), size);
}

/* The last message's last byte becomes another, listed; then both its first and
 * its last, which are too many for the list; then its first again, by way of a
 * journal. */
static void change_last_bytes(uint32_t last, uint32_t size)
{
    const uint8_t *name = (const uint8_t *)"last";
    uint8_t list[8], journal[14] = { 0 };
    uint8_t *work = map(GIB), *text = map(size);
    uint32_t pairs;

    memcpy(text, image + last + HEAD, size);
    text[size - 1] ^= 1;
    expect("the last byte, listed",
           subject.add_listed(image, GIB, name, 4, text, size, 2, work, GIB,
                              list, 8, &pairs), 0);
    expect("  pairs", pairs, 1);
    expect_pair("  its offset", list, GIB - 1, 1);
    text[size - 1] ^= 1;
    text[0] ^= 1;
    expect("the first byte too, listed",
           subject.add_listed(image, GIB, name, 4, text, size, 2, work, GIB,
                              list, 8, &pairs), 0);
    expect("  pairs", pairs, 1);
    expect_pair("  the whole image", list, 0, GIB);
    text[0] ^= 1;
    expect("the first byte, by way of a journal",
           subject.add_journaled(image, GIB, name, 4, text, size, 2, work,
                                 GIB, journal, 14), 0);
    expect("  count", number_at(journal), 1);
    expect_pair("  its offset", journal + 4, last + HEAD, 1);
    expect("  its byte", journal[12], text[0]);
    munmap(work, GIB);
    munmap(text, size);
}

/* Every byte of the longest message becomes another: one run, and one pair. */
static void test_longest_run(void)
{
    const uint8_t *name = (const uint8_t *)"long";
    uint8_t list[16];
    uint8_t *work = map(MIB64), *text = map(MESSAGE_MAX);
    uint32_t pairs;

    created("64 MiB for a long run", MIB64, 4, 128, PAGE);
    memset(text, 'x', MESSAGE_MAX);
    expect("the longest message", add(MIB64, "long", text, MESSAGE_MAX, 1), 0);
    memset(text, 'y', MESSAGE_MAX);
    expect("another in its place, listed",
           subject.add_listed(image, MIB64, name, 4, text, MESSAGE_MAX, 2,
                              work, MIB64, list, 16, &pairs), 0);
    expect("  pairs", pairs, 1);
    expect_pair("  its offset", list, PAGE + HEAD, MESSAGE_MAX);
    munmap(work, MIB64);
    munmap(text, MESSAGE_MAX);
}

static void test_full_image(void)
{
    const uint32_t space = HEAD + MESSAGE_MAX, whole = 63;
    const uint32_t data = PAGE, last = data + whole * space;
    const uint32_t rest = GIB - last - HEAD;
    uint32_t done = 0, offset = TABLE;

    created("1 GiB, K = 4", GIB, 4, 128, data);
    for (uint32_t i = 0; i < whole; i++)
        done += add(GIB, name_of(i), texts + i, MESSAGE_MAX, 1) == 0;
    expect("longest messages", done, whole);
    expect("one byte too many", add(GIB, "last", texts, rest + 1, 1), 13);
    expect("up to the last byte", add(GIB, "last", texts, rest, 1), 0);
    expect("  X", field(52), GIB);
    expect("  M", field(56), (GIB - data - 1) / PAGE);
    expect_text("  its bytes", GIB, "last", last, texts, rest);
    expect("another byte", add(GIB, "more", texts, 1, 1), 13);
    expect("an empty note", add(GIB, "more", texts, 0, 1), 13);
    expect("a point without", add(GIB, "more", texts, 0, 3), 0);
    expect("its empty note", add(GIB, "more", texts, 0, 2), 13);
    expect("a byte appended", add(GIB, "last", texts, 1, 3), 13);
    expect("the last in its place", add(GIB, "last", texts + 5, rest, 2), 0);
    change_last_bytes(last, rest);
    expect_text("  its bytes", GIB, "last", last, texts + 5, rest);
    for (uint32_t i = 0; i < whole; i += 31)
        expect_text("a text", GIB, name_of(i), data + i * space, texts + i,
                    MESSAGE_MAX);
    expect("count", count(GIB), whole + 2);
    expect_sound("sound", GIB);

    /* the length, then the offset of the last message damaged */
    image[last + 3]++;
    expect("a length past X", add(GIB, "last", texts, 1, 2), 11);
    image[last + 3]--;
    while (memcmp(image + offset, "last", 4) != 0)
        offset += 8;
    for (uint32_t o = GIB - 4; o <= GIB + 4; o += 4) {
        set_field(offset + 4, o);
        expect("an offset at the end", add(GIB, "last", texts, 1, 2), 11);
    }
    set_field(offset + 4, 0xFFFFFFFCu);
    expect("an offset past 32 bits", add(GIB, "last", texts, 1, 2), 11);
    set_field(offset + 4, last);
    expect("delete", subject.remove(image, GIB, (const uint8_t *)"last", 4), 0);
    expect("  the letter", image[last], 'd');
    expect("  count", count(GIB), whole + 1);
    pack_full_image(whole);
    madvise(image, GIB, MADV_DONTNEED);
}

/* ---- a table of 1,048,576 slots, filled to the last, beside plain C ---- */

/* Another name for each i below 1,048,576. */
static void spell(uint32_t i, uint8_t *name)
{
    uint32_t n = i * 2654435761u % SLOTS_MAX;

    for (int j = 0; j < 5; j++)
        name[j] = (uint8_t)('0' + (n >> 4 * j) % 16);
}

static uint32_t walk_all(size_t length)
{
    uint32_t shown = 0, slot = 0, key = 1, from = 0;

    while (subject.walk(image, length, from, &slot, &key) == 0 && key != 0) {
        if (slot < from || key != TABLE + slot * 9)
            return 0;
        from = slot + 1;
        shown++;
    }
    return shown;
}

/* Into a longer slice, and back. */
static void convert_beside_plain(size_t length, size_t longer)
{
    uint8_t *one = map(longer), *other = map(longer), *back = map(length);

    memset(one, 7, longer);
    expect("convert", subject.convert(image, length, one, longer), 0);
    expect("convert, plain C", plain_convert(image, length, other, longer), 0);
    expect("as plain C", memcmp(one, other, longer) == 0, 1);
    expect("back", subject.convert(one, longer, other, length), 0);
    expect("back, plain C", plain_convert(one, longer, back, length), 0);
    expect("as plain C", memcmp(other, back, length) == 0, 1);
    munmap(one, longer);
    munmap(other, longer);
    munmap(back, length);
}

static void test_full_table(void)
{
    const size_t length = (TABLE + (size_t)SLOTS_MAX * 9 + PAGE - 1) /
                          PAGE * PAGE;
    uint8_t *plain = map(length);
    uint32_t done = 0;
    uint8_t name[5];

    expect("create", subject.create(image, length, 5, SLOTS_MAX, 1), 0);
    plain_create(plain, length, 5, SLOTS_MAX, 1);
    for (uint32_t i = 0; i < SLOTS_MAX; i++) {
        spell(i, name);
        done += subject.add(image, length, name, 5, NULL, 0, 3) == 0;
        plain_add(plain, length, name, 5, NULL, 0, 3);
    }
    expect("points added", done, SLOTS_MAX);
    expect("count", count(length), SLOTS_MAX);
    expect("as plain C", memcmp(plain, image, length) == 0, 1);
    expect("one more",
           subject.add(image, length, (const uint8_t *)"more!", 5, NULL, 0, 3),
           10);
    expect("walk", walk_all(length), SLOTS_MAX);
    expect_sound("sound", length);
    convert_beside_plain(length, length);
    done = 0;
    for (uint32_t i = 0; i < SLOTS_MAX; i += 4096) {
        spell(i, name);
        done += subject.remove(image, length, name, 5) == 0;
        plain_delete(plain, length, name, 5);
    }
    expect("points deleted", done, 256);
    expect("count", count(length), SLOTS_MAX - 256);
    expect("as plain C", memcmp(plain, image, length) == 0, 1);
    expect_sound("sound", length);
    munmap(plain, length);
}

/* ---- compaction of some 500,000 messages, beside plain C ---- */

/* The same call on both; is it accepted by both? */
static int both_add(uint8_t *plain, size_t length, const uint8_t *name,
                    uint32_t size, uint32_t mode)
{
    return subject.add(image, length, name, 5, texts + name[0], size, mode) +
               plain_add(plain, length, name, 5, texts + name[0], size,
                         mode) == 0;
}

static void test_many_messages(void)
{
    const uint32_t points = 700000;
    const size_t length = 8192 * (size_t)PAGE;
    uint8_t *plain = map(length);
    uint32_t done = 0;
    uint8_t name[5];

    subject.create(image, length, 5, SLOTS_MAX, 1);
    plain_create(plain, length, 5, SLOTS_MAX, 1);
    for (uint32_t i = 0; i < points; i++) {
        spell(i, name);
        done += both_add(plain, length, name, i % 9, 1);
    }
    for (uint32_t i = 0; i < points; i += 3) {
        spell(i, name);
        done += both_add(plain, length, name, i % 7, i % 2 == 0 ? 2 : 4);
    }
    for (uint32_t i = 0; i < points; i += 10) {
        spell(i, name);
        done += subject.remove(image, length, name, 5) +
                    plain_delete(plain, length, name, 5) == 0;
    }
    expect("calls accepted", done, points + (points + 2) / 3 + points / 10);
    expect("as plain C", memcmp(plain, image, length) == 0, 1);
    convert_beside_plain(length, length + 1024 * PAGE);
    expect("compact", subject.compact(image, length), 0);
    expect("compact, plain C", plain_compact(plain, length), 0);
    expect("as plain C", memcmp(plain, image, length) == 0, 1);
    expect_sound("sound", length);
    munmap(plain, length);
}

/* ---- two points on one message among 60,000, beside plain C ---- */

enum { MANY_SLOTS = 80000, MANY_POINTS = 60000, NAME = 5, STRIDE = NAME + 4 };

/* Where the offset of the point's slot stands. */
static uint32_t offset_place(uint32_t point)
{
    uint8_t name[NAME];
    uint32_t at = TABLE;

    spell(point, name);
    while (memcmp(image + at, name, NAME) != 0)
        at += STRIDE;
    return at + NAME;
}

/* What both checks say of the image: the same? */
static int same_verdict(size_t length)
{
    uint32_t verdict, slot, plain_verdict, plain_slot;

    return subject.check(image, length, &verdict, &slot) ==
               plain_check(image, length, &plain_verdict, &plain_slot) &&
           verdict == plain_verdict && slot == plain_slot;
}

/* The first point gets an offset, and both checks are asked; then it gets its
 * own back. */
static void expect_moved(const char *what, size_t length, uint32_t point,
                         uint32_t offset, uint32_t wanted)
{
    uint32_t place = offset_place(point), before = field(place);
    uint32_t verdict, slot;

    set_field(place, offset);
    expect(what, same_verdict(length), 1);
    subject.check(image, length, &verdict, &slot);
    expect(what, verdict, wanted);
    set_field(place, before);
}

/* Three points in turn: the first is led to the second's message, to one byte
 * in front of that message's end, where an empty one is forged, and to the
 * dead message of the third, which no point holds. */
static void test_meeting(void)
{
    const size_t length = MIB64;
    uint8_t name[NAME];
    uint32_t done = 0;

    subject.create(image, length, NAME, MANY_SLOTS, 1);
    for (uint32_t i = 0; i < MANY_POINTS; i++) {
        spell(i, name);
        done += subject.add(image, length, name, NAME, texts + i % 251,
                            500 + i % 211, 1) == 0;
    }
    expect("points stored", done, MANY_POINTS);
    expect_sound("sound", length);
    for (uint32_t i = 0; i < 8; i++) {
        uint32_t one = 7 + i * 7001, two = MANY_POINTS - 1 - i * 6007;
        uint32_t three = 3 + i * 5003, dead = field(offset_place(three));
        uint32_t other = field(offset_place(two)), end;
        uint8_t kept[4];

        expect_moved("on one message", length, one, other, 1);
        end = other + HEAD + 500 + two % 211;
        memcpy(kept, image + end - 4, 4);
        memcpy(image + end - 4, "a\0\0\0", 4);
        expect_moved("in a message's last bytes", length, one, end - 4, 1);
        memcpy(image + end - 4, kept, 4);
        spell(three, name);
        subject.remove(image, length, name, NAME);
        expect_moved("on a dead message", length, one, dead, 0);
    }
    expect_sound("sound", length);
}

/* ---- prisms and their epochs, in the largest table ---- */

enum { PRISMS = 500, EPOCHS = 1000, PRISM = 4, PRISM_KEY = 8 };

#define PRISMS_LENGTH (3073u * PAGE) /* 2,048 + 1,048,576 x 12 is 3,072.5 */

/* P and three digits, then the epoch. */
static void spell_prism(uint32_t prism, uint32_t epoch, uint8_t *key)
{
    key[0] = 'P';
    for (int i = 3; i > 0; i--, prism /= 10)
        key[i] = (uint8_t)('0' + prism % 10);
    for (int i = 0; i < 4; i++)
        key[PRISM + i] = (uint8_t)(epoch >> (24 - 8 * i));
}

static void add_prisms(void)
{
    uint8_t key[PRISM_KEY];
    uint32_t done = 0;

    created("prisms", PRISMS_LENGTH, PRISM_KEY, SLOTS_MAX, PRISMS_LENGTH);
    for (uint32_t i = 0; i < PRISMS * EPOCHS; i++) {
        spell_prism(i % PRISMS, 1 + i / PRISMS, key);
        done += subject.add(image, PRISMS_LENGTH, key, PRISM_KEY, NULL, 0, 3) ==
                0;
    }
    expect("  epochs added", done, PRISMS * EPOCHS);
}

/* Of P..7 at each epoch, fifty prisms: rising slots that hold such a name. */
static void test_ranges(void)
{
    const uint8_t *lowest = (const uint8_t *)"P\0\0007\0\0\0\0";
    const uint8_t *highest = (const uint8_t *)"P\377\3777\377\377\377\377";
    uint8_t *slots = map(4 * SLOTS_MAX);
    uint32_t found = 0, wrong = 0, last = 0;

    add_prisms();
    expect("a list a byte too short",
           subject.select(image, PRISMS_LENGTH, lowest, PRISM_KEY, highest,
                          PRISM_KEY, slots, 4 * SLOTS_MAX - 1, &found), 16);
    expect("P..7", subject.select(image, PRISMS_LENGTH, lowest, PRISM_KEY,
                                  highest, PRISM_KEY, slots, 4 * SLOTS_MAX,
                                  &found), 0);
    expect("  found", found, PRISMS / 10 * EPOCHS);
    for (uint32_t i = 0; i < found; i++) {
        uint32_t slot = number_at(slots + 4 * i);

        wrong += slot >= SLOTS_MAX || (i > 0 && slot <= last) ||
                 image[TABLE + 12 * (slot % SLOTS_MAX) + 3] != '7';
        last = slot;
    }
    expect("  wrong slots", wrong, 0);
    expect("  the list behind them", are_zero(slots + 4 * found, 4096), 1);
    munmap(slots, 4 * SLOTS_MAX);
}

/* Epochs 1 to 1,000 of a prism; then without 500. */
static uint32_t last_epoch(const char *prism, uint32_t epoch)
{
    uint32_t shown = 0, offset = 0, length = 0;
    uint32_t number = subject.at_epoch(image, PRISMS_LENGTH,
                                       (const uint8_t *)prism, PRISM, epoch,
                                       &shown, &offset, &length);

    return number == 0 && (offset | length) == 0 ? shown
                                                 : 1000000000u + number;
}

static void test_epochs(void)
{
    uint8_t key[PRISM_KEY];

    expect("the epoch asked for", last_epoch("P123", 500), 500);
    expect("the last epoch", last_epoch("P499", 0xFFFFFFFFu), EPOCHS);
    expect("before the first", last_epoch("P123", 0), 1000000014u);
    expect("no such prism", last_epoch("P500", 500), 1000000014u);
    spell_prism(123, 500, key);
    expect("an epoch deleted",
           subject.remove(image, PRISMS_LENGTH, key, PRISM_KEY), 0);
    expect("the one before", last_epoch("P123", 500), 499);
    expect("another prism's", last_epoch("P124", 500), 500);
}

/* ---- growth ---- */

/* Two images for the library, and two for plain C. */
struct pair {
    uint8_t *old;
    uint8_t *new;
    size_t old_len;
    size_t new_len;
};

static void map_pair(struct pair *p, size_t old_len, size_t new_len)
{
    p->old = map(old_len);
    p->new = map(new_len);
    p->old_len = old_len;
    p->new_len = new_len;
}

static void unmap_pair(const struct pair *p)
{
    munmap(p->old, p->old_len);
    munmap(p->new, p->new_len);
}

static void number_key(uint8_t *key, uint32_t i)
{
    for (uint32_t b = 0; b < 4; b++)
        key[b] = (uint8_t)((i + 1) >> (24 - 8 * b));
}

/* As many points on one message as make a sum of 2^32 bytes: no room for one
 * byte more, though 32 bits of the sum are 0. */
static void test_sum(void)
{
    const uint32_t slots = 4096, size = 1048576, data = 36864;
    const uint8_t other[4] = { 9, 9, 9, 9 };
    struct pair p;
    uint8_t key[4];

    map_pair(&p, data + size + PAGE, 16 * PAGE + 2 * size);
    expect("old image", plain_create(p.old, p.old_len, 4, slots, 0), 0);
    expect("new image", plain_create(p.new, p.new_len, 4, slots + 1, 0), 0);
    number_key(key, 0);
    expect("a message of 1 MiB", plain_add(p.old, p.old_len, key, 4, texts,
                                           size - HEAD, 1), 0);
    for (uint32_t i = 1; i < slots; i++) {
        number_key(key, i);
        plain_add(p.old, p.old_len, key, 4, NULL, 0, 3);
    }
    for (uint32_t i = 0; i < slots; i++)
        memcpy(p.old + TABLE + 8 * i + 4, "\0\0\x90\0", 4);
    expect("D", data, 0x9000);
    expect("a byte beside 2^32",
           subject.grow_add(p.old, p.old_len, p.new, p.new_len, other, 4,
                            texts, 1, 1), 13);
    p.old[TABLE + 8 * 7 + 4] = 1; /* one offset leads nowhere */
    expect("a byte beside 2^32 less 1 MiB",
           subject.grow_add(p.old, p.old_len, p.new, p.new_len, other, 4,
                            texts, 1, 1), 13);
    expect("a point without a message",
           subject.grow_add(p.old, p.old_len, p.new, p.new_len, other, 4,
                            NULL, 0, 3), 0);
    unmap_pair(&p);
}

/* From 524,288 slots to 1,048,576, beside plain C. */
static void test_growth(void)
{
    const uint32_t slots = SLOTS_MAX / 2, points = 30;
    struct pair p, q;
    uint8_t key[4];

    map_pair(&p, 1040 * PAGE, 2080 * PAGE);
    map_pair(&q, 1040 * PAGE, 2080 * PAGE);
    expect("old image", plain_create(p.old, p.old_len, 4, slots, 0), 0);
    expect("new image", plain_create(p.new, p.new_len, 4, SLOTS_MAX, 7), 0);
    for (uint32_t i = 0; i < points; i++) {
        number_key(key, i);
        plain_add(p.old, p.old_len, key, 4, texts, i, i % 2 + 1);
    }
    memcpy(q.old, p.old, p.old_len);
    memcpy(q.new, p.new, p.new_len);
    expect("start", subject.grow(p.old, p.old_len, p.new, p.new_len), 0);
    for (uint32_t i = points; i < points + 4; i++) {
        number_key(key, i);
        expect("an add",
               subject.grow_add(p.old, p.old_len, p.new, p.new_len, key, 4,
                                texts, i, 1), 0);
        expect("the same by plain C",
               plain_grow_add(q.old, q.old_len, q.new, q.new_len, key, 4,
                              texts, i, 1), 0);
    }
    expect("the old image", memcmp(p.old, q.old, p.old_len) == 0, 1);
    expect("the new image", memcmp(p.new, q.new, p.new_len) == 0, 1);
    expect("no point is left", p.old[23], 0);
    expect("all points", p.new[23], points + 4);
    unmap_pair(&q);
    unmap_pair(&p);
}

int main(void)
{
    image = map((size_t)GIB + PAGE);
    texts = map(MESSAGE_MAX + PAGE);
    for (uint32_t i = 0; i < MESSAGE_MAX + PAGE; i++)
        texts[i] = (uint8_t)(i * 2654435761u >> 24);
    test_questions();
    test_longest_message();
    test_longer_message();
    test_longest_of_2();
    test_longest_columns();
    test_longest_run();
    test_full_image();
    test_full_table();
    test_many_messages();
    test_meeting();
    test_ranges();
    test_epochs();
    test_sum();
    test_growth();
    printf("%u passed, %u failed\n", passed, failed);
    return failed == 0 ? 0 : 1;
}
