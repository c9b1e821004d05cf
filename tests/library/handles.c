/* handles DIRECTORY SEED: the handle's own calls of bhtf_file.h beside those of
 * bhtf.h on the same image, and their refusals. The directory is empty. The
 * last line is 'N passed, M failed'. */
#define _GNU_SOURCE

#include "../../host/include/bhtf_delta.h"

#include <errno.h>
#include <stdio.h>
#include <stdlib.h>
#include <string.h>
#include <sys/stat.h>
#include <sys/wait.h>
#include <unistd.h>

enum { KEY = 12, SLOTS = 100, POINTS = 40, NAMES = 60 };

static int passed, failed;
static char file[600], other[600];

static void holds(const char *name, int is)
{
    printf("%s: %s\n", is ? "ok" : "FAILED", name);
    *(is ? &passed : &failed) += 1;
}

static void must(int is, const char *what)
{
    if (is)
        return;
    printf("FAILED: %s\n", what);
    exit(2);
}

static bhtf_file *open_file(uint32_t flags)
{
    struct bhtf_file_options options = BHTF_FILE_OPTIONS;
    bhtf_file *f;

    options.flags = flags | BHTF_FILE_NO_SYNC;
    options.wait = 0;
    f = bhtf_file_open_with(file, &options, NULL);
    must(f != NULL, "open");
    return f;
}

static uint32_t put(bhtf_file *f, const char *name, const char *text)
{
    uint8_t key[BHTF_KEY_MAX];
    size_t size;
    uint32_t number = bhtf_file_key(f, name, key, &size);

    return number != 0 ? number
        : bhtf_file_replace(f, key, size, (const uint8_t *)text, strlen(text));
}

/* ---- new files, and how long they are ---- */

static void try_lengths(void)
{
    size_t length, shorter;
    uint8_t *image;
    uint32_t at = 0;

    holds("a key size of 0", bhtf_image_len(0, 9, 0, 0, &length) ==
          BHTF_BAD_KEY_SIZE && length == 0);
    holds("one of 33", bhtf_image_len(33, 9, 0, 0, &length) ==
          BHTF_BAD_KEY_SIZE);
    holds("too many slots", bhtf_image_len(9, BHTF_SLOTS_MAX + 1, 0, 0,
          &length) == BHTF_BAD_SLOTS);
    holds("too many bytes", bhtf_image_len(9, 9, 0, BHTF_IMAGE_MAX, &length) ==
          BHTF_BAD_LENGTH && length == 0);
    holds("more than any number", bhtf_image_len(9, 9, 0xFFFFFFFFu,
          UINT64_MAX, &length) == BHTF_BAD_LENGTH);
    must(bhtf_image_len(KEY, SLOTS, POINTS, POINTS * 1000, &length) == 0,
         "a length");
    image = malloc(length);
    must(image != NULL && bhtf_create(image, length, KEY, SLOTS, 1) == 0,
         "an image");
    for (at = 0; at < POINTS; at++) {
        uint8_t key[KEY] = { 'P' }, text[1000];

        key[1] = (uint8_t)(at + 1);
        memset(text, 'x', sizeof text);
        must(bhtf_add(image, length, key, KEY, text, sizeof text, 1) == 0,
             "a text");
    }
    holds("so many texts fit", at == POINTS);
    must(bhtf_image_len(KEY, SLOTS, 0, 0, &shorter) == 0, "a length");
    holds("the least that create takes", bhtf_create(image, shorter, KEY, SLOTS,
          1) == 0 && (shorter == BHTF_PAGE ||
                      bhtf_create(image, shorter - BHTF_PAGE, KEY, SLOTS, 1) ==
                      BHTF_TABLE_TOO_BIG));
    free(image);
}

static void try_make(void)
{
    struct bhtf_file_options options = BHTF_FILE_OPTIONS;
    struct bhtf_file_error why;
    struct stat about;

    options.flags = BHTF_FILE_NO_SYNC;
    holds("a file is made", bhtf_file_make(file, KEY, SLOTS, 7, 0, &options,
          &why) == 0 && stat(file, &about) == 0);
    holds("of the command's length", about.st_size == 4096 + 7 * 4096);
    holds("once", bhtf_file_make(file, KEY, SLOTS, 7, 0, &options, &why) ==
          BHTF_FILE_SYSTEM && why.error == EEXIST);
    holds("not of a length that is none", bhtf_file_make(other, KEY, SLOTS, 7,
          5000, &options, &why) == BHTF_BAD_LENGTH &&
          strstr(why.words, "refused (1)") != NULL);
    holds("nor too short for its table", bhtf_file_make(other, KEY, 1000, 7,
          4096, &options, &why) == BHTF_TABLE_TOO_BIG);
    holds("nor with keys of 33 bytes", bhtf_file_make(other, 33, 9, 7, 0,
          &options, NULL) == BHTF_BAD_KEY_SIZE);
    holds("and nothing is left", access(other, F_OK) != 0);
}

/* ---- options ---- */

struct later {
    struct bhtf_file_options options;
    uint64_t more;
};

static void try_options(void)
{
    struct later later = { BHTF_FILE_OPTIONS, 0 };
    struct bhtf_file_error why;
    bhtf_file *f;
    FILE *text;

    later.options.size = sizeof later;
    f = bhtf_file_open_with(file, &later.options, &why);
    holds("a longer struct with nothing set behind", f != NULL);
    if (f != NULL)
        bhtf_file_close(f);
    later.more = 1;
    holds("with something", bhtf_file_open_with(file, &later.options, &why) ==
          NULL && why.number == BHTF_FILE_MISUSE);
    later.options.size = 8;
    holds("a shorter one than ever was",
          bhtf_file_open_with(file, &later.options, &why) == NULL &&
          why.number == BHTF_FILE_MISUSE);
    text = fopen(other, "w");
    must(text != NULL && fputs("root:x:0:0\n", text) > 0 && fclose(text) == 0,
         "another file");
    holds("what is no such file is not opened",
          bhtf_file_open_with(other, NULL, &why) == NULL &&
          why.number == BHTF_BAD_LENGTH);
    later.options.size = sizeof later.options;
    later.options.flags = BHTF_FILE_ANY;
    f = bhtf_file_open_with(other, &later.options, &why);
    holds("unless that is asked for", f != NULL);
    if (f != NULL) {
        struct bhtf_file_about about;
        uint32_t count;

        holds("then its calls refuse it", bhtf_file_count(f, &count) ==
              BHTF_BAD_LENGTH && bhtf_file_about(f, &about, sizeof about) ==
              BHTF_BAD_LENGTH && about.key_size == 0);
        bhtf_file_close(f);
    }
    unlink(other);
}

/* ---- names ---- */

static void try_names(void)
{
    bhtf_file *f = open_file(BHTF_FILE_WRITE);
    uint8_t key[BHTF_KEY_MAX];
    size_t size;

    memset(key, 9, sizeof key);
    holds("a key of a name", bhtf_file_key(f, "CP-1", key, &size) == 0 &&
          size == KEY && memcmp(key, "CP-1\0\0\0\0\0\0\0\0", KEY) == 0 &&
          key[KEY] == 9);
    holds("of the longest", bhtf_file_key(f, "123456789012", key, &size) == 0);
    holds("a longer one is refused",
          bhtf_file_key(f, "1234567890123", key, &size) == BHTF_BAD_KEY &&
          size == 0 && strstr(bhtf_file_error(f)->words, "1 to 12") != NULL);
    holds("and an empty one", bhtf_file_key(f, "", key, &size) ==
          BHTF_BAD_KEY);
    holds("a key with an epoch", bhtf_file_epoch_key(f, "PRISM-07", 258, key,
          &size) == 0 && size == KEY &&
          memcmp(key, "PRISM-07\0\0\1\2", KEY) == 0);
    holds("whose name is too long", bhtf_file_epoch_key(f, "PRISM-007", 1, key,
          &size) == BHTF_BAD_KEY);
    bhtf_file_close(f);
}

/* ---- what is shown and copied ---- */

static void try_texts(void)
{
    bhtf_file *f = open_file(BHTF_FILE_WRITE);
    uint8_t key[BHTF_KEY_MAX], to[16];
    const uint8_t *text;
    size_t size, length;

    must(put(f, "CP-1", "a text") == 0 && put(f, "CP-2", "") == 0 &&
         put(f, "CP-3", "x") == 0, "texts");
    must(bhtf_file_key(f, "CP-1", key, &size) == 0, "a key");
    holds("a text is shown", bhtf_file_lookup(f, key, size, &text, &length) ==
          0 && length == 6 && memcmp(text, "a text", 6) == 0);
    holds("where it stands", text > bhtf_file_image(f, &length) &&
          text < bhtf_file_image(f, &length) + length);
    holds("and copied", bhtf_file_copy(f, key, size, to, sizeof to, &length) ==
          0 && length == 6 && memcmp(to, "a text", 6) == 0);
    memset(to, 7, sizeof to);
    holds("not in part", bhtf_file_copy(f, key, size, to, 5, &length) ==
          BHTF_SHORT_SLICE && length == 6 && to[0] == 7);
    must(bhtf_file_key(f, "CP-2", key, &size) == 0, "a key");
    holds("an empty one is shown", bhtf_file_lookup(f, key, size, &text,
          &length) == 0 && text != NULL && length == 0);
    must(bhtf_file_key(f, "CP-3", key, &size) == 0 &&
         bhtf_file_withdraw(f, key, size) == 0, "withdraw");
    holds("none is not", bhtf_file_lookup(f, key, size, &text, &length) == 0 &&
          text == NULL && length == 0);
    holds("nor copied", bhtf_file_copy(f, key, size, to, 16, &length) ==
          BHTF_ABSENT);
    must(bhtf_file_key(f, "CP-9", key, &size) == 0, "a key");
    holds("nor one that is not there", bhtf_file_lookup(f, key, size, &text,
          &length) == BHTF_ABSENT && text == NULL && length == 0);
    holds("nor by a key of another size", bhtf_file_lookup(f, key, 4, &text,
          &length) == BHTF_BAD_KEY);
    bhtf_file_close(f);
}

static void try_columns(void)
{
    bhtf_file *f = open_file(BHTF_FILE_WRITE);
    static const uint8_t records[12] = { 1, 2, 3, 4, 5, 6, 7, 8, 9, 10, 11,
                                         12 };
    uint8_t key[BHTF_KEY_MAX], to[16];
    size_t size, length;
    uint32_t width;

    must(bhtf_file_key(f, "READINGS", key, &size) == 0, "a key");
    holds("records are stored", bhtf_file_store_columns(f, key, size, records,
          12, 4) == 0);
    holds("and read", bhtf_file_read_columns(f, key, size, to, 16, &width,
          &length) == 0 && width == 4 && length == 12 &&
          memcmp(to, records, 12) == 0);
    holds("not in part", bhtf_file_read_columns(f, key, size, to, 11, &width,
          &length) == BHTF_SHORT_SLICE && width == 4 && length == 12);
    holds("not half a record", bhtf_file_store_columns(f, key, size, records,
          11, 4) == BHTF_BAD_RECORDS);
    holds("none is a text, too", bhtf_file_store_columns(f, key, size, NULL, 0,
          4) == 0 && bhtf_file_read_columns(f, key, size, NULL, 0, &width,
          &length) == 0 && width == 4 && length == 0);
    must(bhtf_file_key(f, "CP-1", key, &size) == 0, "a key");
    holds("what is no records", bhtf_file_read_columns(f, key, size, to, 16,
          &width, &length) == BHTF_BAD_RECORDS && width == 0);
    bhtf_file_close(f);
}

/* ---- all points, beside the calls of bhtf.h ---- */

static uint32_t chance;

static uint32_t next(uint32_t below)
{
    chance = chance * 1664525u + 1013904223u;
    return (chance >> 8) % below;
}

static void change(bhtf_file *f)
{
    char name[16], text[16];
    uint8_t key[BHTF_KEY_MAX];
    size_t size;

    snprintf(name, sizeof name, "P%02u", (unsigned)next(NAMES));
    snprintf(text, sizeof text, "%u", (unsigned)next(1000000));
    must(bhtf_file_key(f, name, key, &size) == 0, "a key");
    if (next(3) == 0)
        bhtf_file_delete(f, key, size);
    else
        must(put(f, name, text) == 0, "put");
}

/* Is each point of the walk what bhtf_walk and bhtf_lookup say? */
static int walks_alike(bhtf_file *f)
{
    struct bhtf_file_point p = { 0, 0, NULL, 0, 0, NULL, 0, 0 }, again;
    size_t length;
    const uint8_t *image = bhtf_file_image(f, &length);
    uint32_t slot, at, from = 0, offset, size, count, seen = 0;

    for (;; from = slot + 1, seen++) {
        must(bhtf_walk(image, length, from, &slot, &at) == 0 &&
             bhtf_file_walk(f, &p) == 0, "walk");
        if (at == 0)
            break;
        must(bhtf_lookup(image, length, image + at, KEY, &offset, &size) == 0,
             "lookup");
        if (p.slot != slot || p.key != image + at || p.key_len != KEY ||
            p.text != (offset == 0 ? NULL : image + offset) ||
            p.text_len != size || p.number != 0 ||
            strlen((const char *)p.key) != p.name_len ||
            bhtf_file_slot(f, slot, &again) != 0 || again.key != p.key)
            return 0;
    }
    return p.key == NULL && bhtf_file_count(f, &count) == 0 && count == seen;
}

/* Does the selection of one place of the names fit a search by hand? */
static int selects_alike(bhtf_file *f)
{
    uint8_t lowest[KEY] = { 'P' }, highest[KEY] = { 'P' };
    uint32_t slots[SLOTS], found, expected = 0;
    struct bhtf_file_point p = { 0, 0, NULL, 0, 0, NULL, 0, 0 };

    lowest[1] = (uint8_t)('0' + next(6));
    highest[1] = (uint8_t)(lowest[1] + next(3));
    highest[2] = 255;
    while (bhtf_file_walk(f, &p) == 0 && p.key != NULL)
        expected += p.key[0] == 'P' && p.key[1] >= lowest[1] &&
                    p.key[1] <= highest[1] && p.name_len <= 3;
    if (bhtf_file_select(f, lowest, highest, KEY, slots, SLOTS, &found) != 0 ||
        found != expected)
        return 0;
    for (uint32_t i = 0; i < found; i++)
        if (bhtf_file_slot(f, slots[i], &p) != 0 || p.key[1] < lowest[1] ||
            p.key[1] > highest[1])
            return 0;
    return expected == 0 ||
           bhtf_file_select(f, lowest, highest, KEY, slots, expected - 1,
                            &found) == BHTF_SHORT_SLICE;
}

static int tells_numbers(bhtf_file *f)
{
    struct bhtf_file_about about;
    uint32_t verdict, slot;
    size_t length;

    bhtf_file_image(f, &length);
    return bhtf_file_about(f, &about, sizeof about) == 0 &&
           about.version[0] == 1 && about.key_size == KEY &&
           about.slots == SLOTS && about.length == length &&
           about.used + about.free + 4096 == length &&
           about.message_max == BHTF_MESSAGE_MAX && about.message_header == 4 &&
           bhtf_file_check(f, &verdict, &slot) == 0 && verdict == BHTF_SOUND;
}

static void try_chance(int turns)
{
    bhtf_file *f = open_file(BHTF_FILE_WRITE);
    int walked = 0, selected = 0, told = 0;
    uint8_t ranges[KEY] = { 0 };
    uint32_t slots[1], found;

    for (int i = 0; i < turns; i++) {
        must(bhtf_file_begin(f) == 0, "begin");
        for (int n = 0; n < 5; n++)
            change(f);
        must(bhtf_file_commit(f) == 0, "commit");
        walked += walks_alike(f);
        selected += selects_alike(f);
        told += tells_numbers(f);
        if (next(10) == 0)
            must(bhtf_file_compact(f) == 0, "compact");
    }
    holds("random files are walked alike", walked == turns);
    holds("and selected from", selected == turns);
    holds("with right numbers", told == turns);
    holds("ranges of another length", bhtf_file_select(f, ranges, ranges,
          KEY - 1, slots, 1, &found) == BHTF_BAD_RANGES && found == 0);
    bhtf_file_close(f);
}

/* ---- epochs ---- */

static void try_epochs(void)
{
    bhtf_file *f = open_file(BHTF_FILE_WRITE);
    uint8_t key[BHTF_KEY_MAX];
    const uint8_t *text;
    size_t size, length;
    uint32_t shown;

    for (uint32_t epoch = 10; epoch <= 30; epoch += 10) {
        char word[8];

        snprintf(word, sizeof word, "%u", (unsigned)epoch);
        must(bhtf_file_epoch_key(f, "PRISM", epoch, key, &size) == 0 &&
             bhtf_file_replace(f, key, size, (const uint8_t *)word, 2) == 0,
             "an epoch");
    }
    holds("at an epoch", bhtf_file_at_epoch(f, "PRISM", 29, &shown, &text,
          &length) == 0 && shown == 20 && length == 2 &&
          memcmp(text, "20", 2) == 0);
    holds("before the first", bhtf_file_at_epoch(f, "PRISM", 9, &shown, &text,
          &length) == BHTF_ABSENT && shown == 0 && text == NULL);
    holds("of a name that is too long", bhtf_file_at_epoch(f, "PRISM-007", 9,
          &shown, &text, &length) == BHTF_BAD_KEY);
    bhtf_file_close(f);
}

/* ---- who may ask ---- */

static uint32_t ask_all(bhtf_file *f)
{
    struct bhtf_file_point p = { 0, 0, NULL, 0, 0, NULL, 0, 0 };
    struct bhtf_file_about about;
    uint8_t key[BHTF_KEY_MAX] = { 'P' }, to[4];
    uint32_t n, m, slots[1], answer;
    const uint8_t *text;
    size_t length;

    answer = bhtf_file_count(f, &n);
    if (bhtf_file_check(f, &n, &m) != answer ||
        bhtf_file_about(f, &about, sizeof about) != answer ||
        bhtf_file_key(f, "P", key, &length) != answer ||
        bhtf_file_lookup(f, key, KEY, &text, &length) != answer ||
        bhtf_file_copy(f, key, KEY, to, 4, &length) != answer ||
        bhtf_file_read_columns(f, key, KEY, to, 4, &n, &length) != answer ||
        bhtf_file_walk(f, &p) != answer || bhtf_file_slot(f, 0, &p) != answer ||
        bhtf_file_select(f, key, key, KEY, slots, 1, &n) != answer ||
        bhtf_file_at_epoch(f, "P", 1, &n, &text, &length) != answer)
        return 999;
    return answer;
}

static void try_misuse(void)
{
    bhtf_file *f = open_file(0);
    pid_t child;
    int status;

    must(bhtf_file_pause(f) == 0, "pause");
    holds("a paused reader answers nothing", ask_all(f) == BHTF_FILE_MISUSE &&
          strstr(bhtf_file_error(f)->words, "refresh") != NULL);
    must(bhtf_file_refresh(f) == 0, "refresh");
    holds("a reader stores no records", bhtf_file_store_columns(f,
          (const uint8_t *)"P", 1, NULL, 0, 1) == BHTF_FILE_MISUSE);
    child = fork();
    if (child == 0)
        _exit(ask_all(f) == BHTF_FILE_MISUSE ? 0 : 1);
    holds("nor a fork", child > 0 && waitpid(child, &status, 0) == child &&
          status == 0);
    bhtf_file_close(f);
}

int main(int argc, char **argv)
{
    if (argc != 3)
        return 2;
    chance = (uint32_t)atol(argv[2]);
    snprintf(file, sizeof file, "%s/site", argv[1]);
    snprintf(other, sizeof other, "%s/other", argv[1]);
    try_lengths();
    try_make();
    try_options();
    try_names();
    try_texts();
    try_columns();
    try_chance(100);
    try_epochs();
    try_misuse();
    printf("%d passed, %d failed\n", passed, failed);
    return failed != 0;
}
