/* The original's own test (document 000, sections 98 to 101), ported: names of
 * four letters until the table of 5,033 is full, a text appended to each of
 * them five times, and all of it read back. Run as: original FILE */
#include "bhtf.h"
#include "image.h"

#include <stdio.h>
#include <string.h>

enum { REPEAT_COUNT = 5, TABLE_SIZE = 5033, KEY_SIZE = 4, TEXT = 188 };
enum { FILE_SIZE = 16777216 };

struct results {
    int passed;
    int failed;
};

/* What a round over the names saw before it was told to end. */
struct round {
    uint32_t names;
    uint32_t answer; /* the one that ended it; 0 if none did */
    uint32_t bad;    /* texts that were not the expected ones */
};

static void test(struct results *r, int holds, const char *name)
{
    printf("%s: %s\n", holds ? "ok" : "FAILED", name);
    if (holds)
        r->passed++;
    else
        r->failed++;
}

static void make_text(char text[TEXT + 1])
{
    int i;

    for (i = 0; i <= 186; i++)
        text[i] = (i & 1) ? ' ' : (char)(33 + (i >> 1));
    text[i++] = '\n';
    text[i] = '\0';
}

/* Section 100: a whole number of copies of the text, and nothing else. */
static int verify_data(const uint8_t *data, uint32_t length, const char *text,
                       uint32_t copies)
{
    if (length != copies * TEXT)
        return 0;
    for (uint32_t i = 0; i < copies; i++)
        if (memcmp(data + i * TEXT, text, TEXT) != 0)
            return 0;
    return 1;
}

static uint32_t append(struct image *i, const uint8_t *key, const char *text,
                       struct round *round)
{
    (void)round;
    return bhtf_add(i->bytes, i->length, key, KEY_SIZE, (const uint8_t *)text,
                    TEXT, BHTF_APPEND);
}

static uint32_t read_back(struct image *i, const uint8_t *key,
                          const char *text, struct round *round)
{
    uint32_t offset, length;
    uint32_t answer = bhtf_lookup(i->bytes, i->length, key, KEY_SIZE, &offset,
                                  &length);

    if (answer == BHTF_ACCEPTED &&
        !verify_data(i->bytes + offset, length, text, REPEAT_COUNT))
        round->bad++;
    return answer;
}

/* The three loops of section 101, to the first name that is refused. */
static struct round each_name(struct image *i, const char *text,
                              uint32_t (*step)(struct image *, const uint8_t *,
                                               const char *, struct round *))
{
    struct round round = { 0, 0, 0 };
    uint8_t key[KEY_SIZE];

    for (key[0] = 'A'; key[0] <= 'Z'; key[0]++) {
        key[1] = key[0];
        for (key[2] = 'A'; key[2] <= 'Z'; key[2]++)
            for (key[3] = 'A'; key[3] <= 'Z'; key[3]++) {
                round.answer = step(i, key, text, &round);
                if (round.answer != BHTF_ACCEPTED)
                    return round;
                round.names++;
            }
    }
    return round;
}

static int create(struct results *r, struct image *i, const char *path)
{
    int made = image_create(i, path, FILE_SIZE, 1) == 0;

    test(r, made, "the file is created");
    if (!made)
        return 0;
    test(r, bhtf_create(i->bytes, i->length, KEY_SIZE, TABLE_SIZE, 0) == 0,
         "its table of 5,033 is made");
    return 1;
}

static void fill(struct results *r, struct image *i, const char *text)
{
    for (int n = 1; n <= REPEAT_COUNT; n++) {
        struct round round = each_name(i, text, append);
        uint32_t count;
        char name[64];

        bhtf_count(i->bytes, i->length, &count);
        snprintf(name, sizeof name, "round %d: 5,033 texts, and then 10", n);
        test(r, round.names == TABLE_SIZE && count == TABLE_SIZE &&
                round.answer == BHTF_TABLE_FULL, name);
    }
}

static uint32_t walked(const struct image *i)
{
    uint32_t slot, place;
    uint32_t names = 0;

    bhtf_walk(i->bytes, i->length, 0, &slot, &place);
    while (place != 0) {
        names++;
        bhtf_walk(i->bytes, i->length, slot + 1, &slot, &place);
    }
    return names;
}

static void read_all(struct results *r, struct image *i, const char *text)
{
    struct round round = each_name(i, text, read_back);
    uint32_t verdict, slot;

    test(r, round.names == TABLE_SIZE, "5,033 names are found");
    test(r, round.answer == BHTF_ABSENT, "the next one is not");
    test(r, round.bad == 0, "each text is there five times");
    test(r, walked(i) == TABLE_SIZE, "the walk meets 5,033 names and ends");
    test(r, bhtf_check(i->bytes, i->length, &verdict, &slot) == 0 &&
            verdict == BHTF_SOUND, "the file is sound");
}

int main(int argc, char **argv)
{
    const struct manner to_read = { 0, 0, 1 };
    struct results r = { 0, 0 };
    struct image i = { 0 };
    char text[TEXT + 1];

    if (argc != 2) {
        fputs("usage: original FILE\n", stderr);
        return 2;
    }
    make_text(text);
    test(&r, strlen(text) == TEXT, "the text has 188 characters");
    if (create(&r, &i, argv[1])) {
        fill(&r, &i, text);
        read_all(&r, &i, text);
        test(&r, image_close(&i) == 0, "the file is closed");
    }
    if (image_open(&i, argv[1], to_read) == 0) {
        puts("opened again, to be read:");
        read_all(&r, &i, text);
        image_drop(&i);
    } else {
        test(&r, 0, "the file is opened again");
    }
    printf("%d passed, %d failed\n", r.passed, r.failed);
    return r.failed == 0 ? 0 : 1;
}
