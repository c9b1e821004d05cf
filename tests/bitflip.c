/* Flips each of the 65,536 bits of a small image, asks count and check, and
 * compares how often each answer comes with what the layout says; then selects
 * names and compares how many slots are listed how often, asks for an epoch,
 * converts, and starts growth. The same for the image in version 2.0.0.
 * Ends with "N passed, 0 failed".
 *
 * The image: seed 0, K = 1, N = 4, L = 8192, so D = 4096.
 *   slot  key  home  message
 *   0       2    3   4101, 2 bytes, inactive
 *   1      32    0   4107, 3 bytes
 *   2    none        offset 0
 *   3       1    3   4096, 1 byte
 * C = 3, X = 4096 + 5 + 6 + 7 = 4114.
 *
 * Homes: bytes 1 and 2 are not scrambled, their hash is start x multiplier =
 * 0x050C5D1F; N = 4 keeps its last two bits, 3. Scramble number i is, in its
 * last two bits, 3 (i + 1) mod 4 (the generator's numbers are 1 and 3 mod 4);
 * so byte 32 has home 3 xor 3 = 0.
 *
 * By hand, bit by bit:                    5    6  slot count  sound
 *   0-6 letters, version 1, 0            56
 *   7 last version byte, 2 or 0           7                       1
 *   8 serial                                                     32
 *   12 K: 3, 5, 9, 17 keep D                  28    4
 *   16 N: 5 .. 260 keep D; 1 and 2 then
 *      share a home, slots 0 and 3 not        24    8
 *   20 C: 1 and 2 are at most N               30          2
 *   24 multiplier: its last two bits                2            30
 *   28 start value: its last two bits               2            30
 *   32 F: 33, 34, 36, 40, 48, 96 bring 32
 *      to home 3; 0 scrambles 1 and 2         25    1             6
 *   36 E: the last eight bits                 24                  8
 *   40-51 scramble and table offset, D        96
 *   52 X: 4112 and 4098 cut messages          20    2            10
 *   56 M, and up to 511                                        3648
 *   512 number 0, second last bit                   1            31
 *   516-2047 the rest of the scramble, gap                    12256
 *   key of slot 0: 0, 34, 66                        3             5
 *   key of slot 1: 34; 0 is empty                   1     1       6
 *   key of slot 2: 1, 2, 32 are doubles             3     5
 *   key of slot 3: 0, 33, 65                        3             5
 *   offsets of slots 0, 1, 3; 4096 to 0            95             1
 *   offset of slot 2                                             32
 *   behind the table                                          16224
 *   message letters: a and d differ in 2 bits      24
 *   message lengths: 3, 5, 9; 3, 6 reach into
 *      the next message; 0; 0; 1, 2 do not         68             4
 *   message bytes                                                48
 *   behind X                                                  32624
 *   together                             63  247  217     8   65001
 *
 * Names, of those that 5 and 6 leave: another K is 22, four times. In the range
 * 0 to 255 three slots are listed; two when a key becomes 0, three times; four
 * when slot 2 gets a key, eight times. In the range 2 to 2 it is one, slot 0;
 * none when its key is another, eight times; two when slot 2 gets 2, once.
 *
 * An epoch, of name 2 up to 4101, of those that 5 and 6 leave: K is below 5,
 * which is 23, but for K = 5, 9 and 17. With 9 and 17 the name has another
 * length, 7. With 5 slot 0 is 2, 0, 0, 16, 5: of epoch 4101, and the offset
 * behind it, 32, 0, 0, 16, leaves the image: 11.
 *
 * In version 2.0.0 messages are a byte longer each: they stand at 4096, 4102 and
 * 4109, and X = 4117. What differs:      5    6  slot count  sound
 *   0-7 letters, version 2, 0, 0         64
 *   52 X: 4116, 4113 and 4101 cut messages    20    3             9
 *   message lengths: one byte more each            92             4
 *   behind X                                                  32600
 *   together                             64  247  242     8   64975
 * Name 2 has epoch 4102 with K = 5.
 *
 * A conversion is accepted where the image is sound, and else 5, 6 or 15.
 *
 * Growth: the image is the old one of a pair whose new one has K = 1, N = 8,
 * L = 8192 and no points. Bits of the old one: a start is 5, 6 or 15 as a
 * conversion; a count is 5, 6, or 21 for the four K that 6 takes. Of the new one
 * everything is 21; by hand, how many bits are:       start  count
 *   0-7 letters, version; 1.0.0 may be                   63     63
 *   12 K                                                 32     32
 *   16 N: 9, 10, 12, 24, 40, 72, 136, 264 keep D         24     24
 *   20 C: 1, 2, 4 and 8 are at most N                    32     28
 *   32 F: 160 and above are above E                      25     25
 *   36 E: the last eight bits                            24     24
 *   40-51 scramble and table offset, D                   96     96
 *   52 X: 4097 to 6144 are in the image                  32     20
 *   keys of 8 slots                                      64
 *   together                                            392    312
 * In version 2.0.0 one more of each. */
#include "calls.h"

#include <stdio.h>
#include <string.h>

enum { K = 1, N = 4, L = 8192, D = 4096, C = 3, F = 32, E = 126 };
enum { SCRAMBLE = 512, NUMBERS = E - F + 1, TABLE = 2048, STRIDE = K + 4 };
enum { POINTS = 3 };

#define START 0x811C9DC5u
#define MULTIPLIER 0x01000193u

enum class { FIVE, SIX, SLOT, COUNT, SOUND, CLASSES };

static const char *const class_name[CLASSES] = {
    "5", "6", "slot", "count", "sound",
};

/* The points in the order they are added, and where they come to stand; the
 * offsets are those of version 1, or 2.0.0. */
static struct point {
    uint8_t key;
    uint32_t slot;
    uint32_t offset;
    uint32_t length;
    const char *text;
} points[POINTS] = {
    { 1, 3, 0, 1, "P" },
    { 2, 0, 0, 2, "QR" },
    { 32, 1, 0, 3, "STU" },
};

static uint32_t header_size;
static uint32_t X;

/* Messages one behind the other, with headers of that size. */
static void lay_out(uint32_t size)
{
    header_size = size;
    X = D;
    for (int i = 0; i < POINTS; i++) {
        points[i].offset = X;
        X += size + points[i].length;
    }
}

static uint8_t image[L];
static unsigned passed;
static unsigned failed;

static void expect(const char *where, const char *what, unsigned long got,
                   unsigned long want)
{
    if (got == want) {
        passed++;
        return;
    }
    failed++;
    printf("FAILED: %s, %s: got %lu, expected %lu\n", where, what, got, want);
}

/* ---- formulas ---- */

/* The last two bits of scramble number i. */
static uint32_t scramble4(uint32_t i)
{
    return i < NUMBERS ? 3 * (i + 1) % 4 : 0;
}

/* Home of a key, by the last two bits of start and multiplier. */
static uint32_t home4(uint32_t key, uint32_t start, uint32_t multiplier,
                      uint32_t first, uint32_t last)
{
    uint32_t home = (start % 4) * (multiplier % 4) % 4;

    return first <= key && key <= last ? home ^ scramble4(key - first) : home;
}

static uint32_t usual_home(uint32_t key)
{
    return home4(key, START, MULTIPLIER, F, E);
}

static void usual_keys(uint8_t *keys)
{
    memset(keys, 0, N);
    for (int i = 0; i < POINTS; i++)
        keys[points[i].slot] = points[i].key;
}

/* Does the way from home to slot meet neither an empty slot nor the key? */
static int reached(const uint8_t *keys, uint32_t n, uint32_t home,
                   uint32_t slot)
{
    for (uint32_t s = home; s != slot; s = (s + 1) % n)
        if (s >= N || keys[s] == 0 || keys[s] == keys[slot])
            return 0;
    return 1;
}

/* The check's word on four keys and their homes; messages are good. */
static enum class class_of(const uint8_t *keys, const uint32_t *homes,
                           uint32_t n)
{
    uint32_t taken = 0;

    for (uint32_t s = 0; s < N; s++) {
        if (keys[s] == 0)
            continue;
        taken++;
        if (!reached(keys, n, homes[s], s))
            return SLOT;
    }
    return taken == C ? SOUND : COUNT;
}

static enum class class_of_hash(uint32_t start, uint32_t multiplier,
                                uint32_t first, uint32_t last)
{
    uint8_t keys[N];
    uint32_t homes[N];

    usual_keys(keys);
    for (int s = 0; s < N; s++)
        homes[s] = home4(keys[s], start, multiplier, first, last);
    return class_of(keys, homes, N);
}

/* The table's bytes as the layout has them, zeros behind. */
static void table_bytes(uint8_t *table)
{
    memset(table, 0, 64);
    for (int i = 0; i < POINTS; i++) {
        uint8_t *slot = table + points[i].slot * STRIDE;

        slot[0] = points[i].key;
        slot[3] = (uint8_t)(points[i].offset >> 8);
        slot[4] = (uint8_t)points[i].offset;
    }
}

/* ---- the class of one flipped bit, field by field; f has the bit set ---- */

static enum class flip_first_seven(uint32_t f)
{
    (void)f;
    return FIVE;
}

static enum class flip_version(uint32_t f)
{
    return header_size == 4 && (2 ^ f) <= 2 ? SOUND : FIVE;
}

static enum class flip_free(uint32_t f)
{
    (void)f;
    return SOUND;
}

static enum class flip_fixed(uint32_t f)
{
    (void)f;
    return SIX;
}

/* With a longer key, slot 0 is still taken (its first byte is), and the
 * bytes that are its offset now point far behind X. */
static enum class flip_key_size(uint32_t f)
{
    uint32_t k = K ^ f;
    uint8_t t[64];

    if (k < 1 || k > 32 || 2048 + N * (k + 4) > D)
        return SIX;
    table_bytes(t);
    return t[k] != 0 || t[k + 1] != 0 ? SLOT : SOUND;
}

/* The hashes of 01's table, modulo another N; slots from 4 on are empty. */
static enum class flip_slots(uint32_t f)
{
    uint32_t n = N ^ f;
    uint8_t keys[N];
    uint32_t homes[N];

    if (n < 1 || n > 65536 || 2048 + n * STRIDE > D)
        return SIX;
    usual_keys(keys);
    for (int s = 0; s < N; s++)
        homes[s] = (keys[s] == 32 ? 0x3962AE40u : 0x050C5D1Fu) % n;
    return class_of(keys, homes, n);
}

static enum class flip_count(uint32_t f)
{
    return (C ^ f) <= N ? COUNT : SIX;
}

static enum class flip_multiplier(uint32_t f)
{
    return class_of_hash(START, MULTIPLIER ^ f, F, E);
}

static enum class flip_start(uint32_t f)
{
    return class_of_hash(START ^ f, MULTIPLIER, F, E);
}

static enum class flip_first(uint32_t f)
{
    return (F ^ f) > E ? SIX : class_of_hash(START, MULTIPLIER, F ^ f, E);
}

static enum class flip_last(uint32_t f)
{
    uint32_t last = E ^ f;

    return last < F || last > 255 ? SIX
                                  : class_of_hash(START, MULTIPLIER, F, last);
}

static enum class flip_next(uint32_t f)
{
    uint32_t next = X ^ f;

    if (next < D || next > L)
        return SIX;
    return next < X ? SLOT : SOUND;
}

/* Number 0 is that of byte 32, in slot 1. */
static enum class flip_number_0(uint32_t f)
{
    uint8_t keys[N];
    uint32_t homes[N];

    usual_keys(keys);
    for (int s = 0; s < N; s++)
        homes[s] = usual_home(keys[s]);
    homes[1] ^= f % 4;
    return class_of(keys, homes, N);
}

static enum class flip_key(uint32_t slot, uint32_t f)
{
    uint8_t keys[N];
    uint32_t homes[N];

    usual_keys(keys);
    keys[slot] ^= (uint8_t)f;
    for (int s = 0; s < N; s++)
        homes[s] = usual_home(keys[s]);
    return class_of(keys, homes, N);
}

static enum class flip_key_0(uint32_t f)
{
    return flip_key(0, f);
}

static enum class flip_key_1(uint32_t f)
{
    return flip_key(1, f);
}

static enum class flip_key_2(uint32_t f)
{
    return flip_key(2, f);
}

static enum class flip_key_3(uint32_t f)
{
    return flip_key(3, f);
}

/* No message, or no header, or that of another point. */
static enum class flip_offset(uint32_t offset, uint32_t f)
{
    return (offset ^ f) == 0 ? SOUND : SLOT;
}

static enum class flip_offset_0(uint32_t f)
{
    return flip_offset(points[1].offset, f);
}

static enum class flip_offset_1(uint32_t f)
{
    return flip_offset(points[2].offset, f);
}

static enum class flip_offset_3(uint32_t f)
{
    return flip_offset(points[0].offset, f);
}

static enum class flip_letter_a(uint32_t f)
{
    return ('a' ^ f) == 'd' ? SOUND : SLOT;
}

static enum class flip_letter_d(uint32_t f)
{
    return ('d' ^ f) == 'a' ? SOUND : SLOT;
}

/* A length up to what the next message, or X, leaves. */
static enum class flip_length(const struct point *p, uint32_t f)
{
    uint32_t end = p + 1 < points + POINTS ? p[1].offset : X;
    uint32_t length = p->length ^ f;

    return length <= end - p->offset - header_size ? SOUND : SLOT;
}

static enum class flip_length_1(uint32_t f)
{
    return flip_length(&points[0], f);
}

static enum class flip_length_2(uint32_t f)
{
    return flip_length(&points[1], f);
}

static enum class flip_length_3(uint32_t f)
{
    return flip_length(&points[2], f);
}

/* ---- the regions ---- */

/* A region ends where the next one begins. Each unit of it is a number of unit
 * bytes, or bytes by themselves; 0 for a message's length. */
static const struct region {
    const char *name;
    uint32_t size; /* of all but the messages and what is behind them */
    uint32_t unit;
    enum class (*flipped)(uint32_t f);
} regions[] = {
    { "letters and version", 7, 1, flip_first_seven },
    { "last version byte", 1, 1, flip_version },
    { "serial", 4, 4, flip_free },
    { "K", 4, 4, flip_key_size },
    { "N", 4, 4, flip_slots },
    { "C", 4, 4, flip_count },
    { "multiplier", 4, 4, flip_multiplier },
    { "start value", 4, 4, flip_start },
    { "F", 4, 4, flip_first },
    { "E", 4, 4, flip_last },
    { "scramble and table offset, D", 12, 4, flip_fixed },
    { "X", 4, 4, flip_next },
    { "M and behind", SCRAMBLE - 56, 1, flip_free },
    { "scramble number 0", 4, 4, flip_number_0 },
    { "up to the table", TABLE - SCRAMBLE - 4, 1, flip_free },
    { "key of slot 0", 1, 1, flip_key_0 },
    { "offset of slot 0", 4, 4, flip_offset_0 },
    { "key of slot 1", 1, 1, flip_key_1 },
    { "offset of slot 1", 4, 4, flip_offset_1 },
    { "key of slot 2", 1, 1, flip_key_2 },
    { "offset of slot 2", 4, 4, flip_free },
    { "key of slot 3", 1, 1, flip_key_3 },
    { "offset of slot 3", 4, 4, flip_offset_3 },
    { "up to D", D - TABLE - N * STRIDE, 1, flip_free },
    { "letter of message 1", 1, 1, flip_letter_a },
    { "length of message 1", 0, 0, flip_length_1 },
    { "message 1", 1, 1, flip_free },
    { "letter of message 2", 1, 1, flip_letter_d },
    { "length of message 2", 0, 0, flip_length_2 },
    { "message 2", 2, 1, flip_free },
    { "letter of message 3", 1, 1, flip_letter_a },
    { "length of message 3", 0, 0, flip_length_3 },
    { "message 3", 3, 1, flip_free },
};

enum { REGIONS = sizeof regions / sizeof *regions };

static uint32_t unit_of(const struct region *r)
{
    return r->unit == 0 ? header_size - 1 : r->unit;
}

static uint32_t size_of(const struct region *r)
{
    return r->unit == 0 ? header_size - 1 : r->size;
}

static void count_by_formula(const struct region *r, unsigned long *counts)
{
    for (uint32_t at = 0; at < size_of(r); at += unit_of(r))
        for (uint32_t bit = 0; bit < 8 * unit_of(r); bit++)
            counts[r->flipped(1u << bit)]++;
}

/* ---- the run ---- */

static uint32_t number_at(uint32_t offset)
{
    const uint8_t *at = image + offset;

    return (uint32_t)at[0] << 24 | (uint32_t)at[1] << 16 |
           (uint32_t)at[2] << 8 | (uint32_t)at[3];
}

/* Asks count and check; both must be of one mind. */
static enum class ask(void)
{
    uint32_t held = 77, verdict = 77, slot = 77;
    uint32_t number = subject.count(image, L, &held);

    if (subject.check(image, L, &verdict, &slot) != number)
        return CLASSES;
    if (held != (number == 0 ? number_at(20) : 0))
        return CLASSES;
    if (number != 0)
        return number == 5 ? FIVE : number == 6 ? SIX : CLASSES;
    if (verdict == 0)
        return SOUND;
    return verdict == 1 ? SLOT : verdict == 2 ? COUNT : CLASSES;
}

static void count_by_run(uint32_t at, uint32_t end, unsigned long *counts)
{
    for (; at < end; at++)
        for (int bit = 0; bit < 8; bit++) {
            image[at] ^= (uint8_t)(1u << bit);
            counts[ask()]++;
            image[at] ^= (uint8_t)(1u << bit);
        }
}

/* The region from a place on. */
static void compare_region(const struct region *r, uint32_t at,
                           unsigned long *totals)
{
    unsigned long got[CLASSES + 1] = { 0 };
    unsigned long want[CLASSES + 1] = { 0 };

    count_by_run(at, at + size_of(r), got);
    count_by_formula(r, want);
    for (int c = 0; c < CLASSES; c++) {
        expect(r->name, class_name[c], got[c], want[c]);
        totals[c] += got[c];
    }
    expect(r->name, "none of the five", got[CLASSES], 0);
}

/* Of version 1, or converted before its points are added. */
static void make_image(uint32_t size)
{
    static uint8_t fresh[L];
    uint8_t table[64];

    lay_out(size);
    expect("create", "answer", subject.create(image, L, K, N, 0), 0);
    if (size == 5) {
        memcpy(fresh, image, L);
        expect("convert", "answer", subject.convert(fresh, L, image, L), 0);
    }
    for (int i = 0; i < POINTS; i++)
        expect("add", "answer",
               subject.add(image, L, &points[i].key, 1,
                           (const uint8_t *)points[i].text, points[i].length,
                           1),
               0);
    expect("withdraw 2", "answer",
           subject.add(image, L, &points[1].key, 1, NULL, 0, 4), 0);
    table_bytes(table);
    expect("table", "as laid out",
           memcmp(image + TABLE, table, N * STRIDE) == 0, 1);
    expect("X", "number", number_at(52), X);
    expect("version", "bytes",
           memcmp(image + 5, size == 5 ? "\2\0\0" : "\1\0\2", 3) == 0, 1);
    expect("whole image", "sound", ask(), SOUND);
}

/* ---- names in ranges ---- */

enum { LISTED = N + 1, REFUSED = 24 };

/* How often so many slots are listed, and how often each number comes. */
static void count_selected(uint8_t lowest, uint8_t highest,
                           unsigned long *listed, unsigned long *refused)
{
    uint8_t list[4 * 260]; /* for the N that 6 takes */

    for (uint32_t bit = 0; bit < 8 * L; bit++) {
        uint32_t found = 77, number;

        image[bit / 8] ^= (uint8_t)(1u << bit % 8);
        number = subject.select(image, L, &lowest, 1, &highest, 1, list,
                                sizeof list, &found);
        image[bit / 8] ^= (uint8_t)(1u << bit % 8);
        refused[number < REFUSED ? number : 0]++;
        if (number == 0)
            listed[found < LISTED ? found : 0]++;
        else if (found != 0)
            refused[0]++;
    }
}

static void select_names(const char *where, uint8_t lowest, uint8_t highest,
                         const unsigned long *by_hand, unsigned long five)
{
    unsigned long listed[LISTED] = { 0 }, refused[REFUSED] = { 0 };

    count_selected(lowest, highest, listed, refused);
    for (int i = 0; i < LISTED; i++)
        expect(where, "slots listed", listed[i], by_hand[i]);
    expect(where, "5", refused[5], five);
    expect(where, "6", refused[6], 247);
    expect(where, "22", refused[22], 4);
    expect(where, "accepted", refused[0], 8 * L - five - 247 - 4);
}

/* ---- an epoch ---- */

static void ask_epoch(unsigned long five, unsigned long below_5)
{
    const uint8_t name = 2;
    unsigned long numbers[REFUSED] = { 0 };

    for (uint32_t bit = 0; bit < 8 * L; bit++) {
        uint32_t shown = 77, offset = 77, length = 77, number;

        image[bit / 8] ^= (uint8_t)(1u << bit % 8);
        number = subject.at_epoch(image, L, &name, 1, points[1].offset,
                                  &shown, &offset, &length);
        image[bit / 8] ^= (uint8_t)(1u << bit % 8);
        numbers[number < REFUSED && (shown | offset | length) == 0 ? number
                                                                   : 0]++;
    }
    expect("an epoch", "0", numbers[0], 0);
    expect("an epoch", "5", numbers[5], five);
    expect("an epoch", "6", numbers[6], 247);
    expect("an epoch", "7", numbers[7], 2);
    expect("an epoch", "11", numbers[11], 1);
    expect("an epoch", "23", numbers[23], below_5);
}

/* ---- a conversion ---- */

static void convert_all(const unsigned long *by_hand)
{
    static uint8_t target[L];
    unsigned long numbers[REFUSED] = { 0 };

    for (uint32_t bit = 0; bit < 8 * L; bit++) {
        uint32_t number;

        image[bit / 8] ^= (uint8_t)(1u << bit % 8);
        number = subject.convert(image, L, target, L);
        image[bit / 8] ^= (uint8_t)(1u << bit % 8);
        numbers[number < REFUSED ? number : 1]++;
    }
    expect("converted", "5", numbers[5], by_hand[FIVE]);
    expect("converted", "6", numbers[6], by_hand[SIX]);
    expect("converted", "15", numbers[15], by_hand[SLOT] + by_hand[COUNT]);
    expect("converted", "accepted", numbers[0], by_hand[SOUND]);
}

/* ---- a pair ---- */

static uint8_t second[L];

/* How often a start and a count of the pair give each number, for every bit of
 * one of its images. */
static void count_pair(uint8_t *flipped, unsigned long *starts,
                       unsigned long *counts)
{
    for (uint32_t bit = 0; bit < 8 * L; bit++) {
        uint32_t held = 77, number;

        flipped[bit / 8] ^= (uint8_t)(1u << bit % 8);
        number = subject.grow(image, L, second, L);
        starts[number < REFUSED ? number : 1]++;
        number = subject.grow_count(image, L, second, L, &held);
        if (held != (number == 0 ? number_at(20) + second[23] : 0))
            number = 1;
        counts[number < REFUSED ? number : 1]++;
        flipped[bit / 8] ^= (uint8_t)(1u << bit % 8);
    }
}

static void flip_pair(const unsigned long *by_hand, unsigned long not_second)
{
    unsigned long starts[REFUSED] = { 0 }, counts[REFUSED] = { 0 };
    unsigned long starts_of_2[REFUSED] = { 0 }, counts_of_2[REFUSED] = { 0 };

    expect("second image", "answer", subject.create(second, L, K, 8, 0), 0);
    if (image[5] == 2)
        second[5] = 2, second[7] = 0;
    count_pair(image, starts, counts);
    expect("start, old image", "5", starts[5], by_hand[FIVE]);
    expect("start, old image", "6", starts[6], by_hand[SIX]);
    expect("start, old image", "15", starts[15],
           by_hand[SLOT] + by_hand[COUNT]);
    expect("start, old image", "accepted", starts[0], by_hand[SOUND]);
    expect("count, old image", "5", counts[5], by_hand[FIVE]);
    expect("count, old image", "6", counts[6], by_hand[SIX]);
    expect("count, old image", "21", counts[21], 4);
    expect("count, old image", "accepted", counts[0],
           8 * L - by_hand[FIVE] - by_hand[SIX] - 4);
    count_pair(second, starts_of_2, counts_of_2);
    expect("start, new image", "21", starts_of_2[21], 392 + not_second);
    expect("start, new image", "accepted", starts_of_2[0],
           8 * L - 392 - not_second);
    expect("count, new image", "21", counts_of_2[21], 312 + not_second);
    expect("count, new image", "accepted", counts_of_2[0],
           8 * L - 312 - not_second);
}

static void flip_bits(const unsigned long *by_hand)
{
    const struct region behind = { "behind X", L - X, 1, flip_free };
    unsigned long totals[CLASSES] = { 0 };
    uint32_t at = 0;

    for (int i = 0; i < REGIONS; i++) {
        compare_region(&regions[i], at, totals);
        at += size_of(&regions[i]);
    }
    expect("regions", "end", at, X);
    compare_region(&behind, X, totals);
    for (int c = 0; c < CLASSES; c++) {
        printf("%s: %lu\n", class_name[c], totals[c]);
        expect("all bits", class_name[c], totals[c], by_hand[c]);
    }
    convert_all(by_hand);
}

static void flip_version_1(void)
{
    static const unsigned long all[LISTED] = { 0, 0, 3, 65211, 8 };
    static const unsigned long of_2[LISTED] = { 8, 65213, 1, 0, 0 };
    static const unsigned long by_hand[CLASSES] = { 63, 247, 217, 8, 65001 };

    make_image(4);
    flip_bits(by_hand);
    select_names("names from 0 to 255", 0, 255, all, 63);
    select_names("the name 2", 2, 2, of_2, 63);
    ask_epoch(63, 65223);
    flip_pair(by_hand, 0);
}

static void flip_version_2(void)
{
    static const unsigned long all[LISTED] = { 0, 0, 3, 65210, 8 };
    static const unsigned long of_2[LISTED] = { 8, 65212, 1, 0, 0 };
    static const unsigned long by_hand[CLASSES] = { 64, 247, 242, 8, 64975 };

    make_image(5);
    flip_bits(by_hand);
    select_names("2.0.0, names from 0 to 255", 0, 255, all, 64);
    select_names("2.0.0, the name 2", 2, 2, of_2, 64);
    ask_epoch(64, 65222);
    flip_pair(by_hand, 1);
}

int main(void)
{
    flip_version_1();
    flip_version_2();
    printf("%u passed, %u failed\n", passed, failed);
    return failed != 0;
}
