/* What anybody may hand to the command and the file layer, for libFuzzer.
 *
 *   FUZZ=file      a control point file, through the commands that read one and
 *                  those that change one
 *   FUZZ=csv, gsi, landxml   what import reads
 *   FUZZ=dump      what load reads
 *   FUZZ=delta     what apply reads, and what --delta goes on from
 *   FUZZ=journal   a journal beside a half written file: a reader and a writer
 *                  agree, and nothing is touched where it is refused
 *
 * Sums are made right in every second input, so that what lies after them is
 * met. FUZZ_PLACE is a directory for files. A run ends at the first crash, and
 * where a promise does not hold. */
#include "../../host/file/layer_journal.h"
#include "../../host/include/bhtf_delta.h"

#include <fcntl.h>
#include <stdio.h>
#include <stdlib.h>
#include <string.h>
#include <unistd.h>

int bhtf_main(int argc, char **argv);

static char site[600], input[600], journal[600], records[600];
static const char *target;
static uint8_t first[32768], half[32768];

enum { SIZE = 32768 };

static void must(int holds, const char *what)
{
    if (holds)
        return;
    fprintf(stderr, "does not hold: %s\n", what);
    abort();
}

static void put_file(const char *path, const uint8_t *bytes, size_t length)
{
    int fd = open(path, O_RDWR | O_CREAT | O_TRUNC, 0644);

    must(fd >= 0 && write(fd, bytes, length) == (ssize_t)length, path);
    close(fd);
}

static int get_file(const char *path, uint8_t *bytes, size_t room)
{
    int fd = open(path, O_RDONLY);
    ssize_t length = fd < 0 ? -1 : read(fd, bytes, room);

    if (fd >= 0)
        close(fd);
    return (int)length;
}

/* Runs the command with these words, the first of which is its name. */
static int run(char *const *words)
{
    char *copy[12];
    int count = 0;

    for (; words[count] != NULL; count++)
        copy[count] = words[count];
    copy[count] = NULL;
    return bhtf_main(count, copy);
}

#define RUN(...) run((char *[]) { "bhtf", __VA_ARGS__, NULL })

static const uint8_t *key_of(const char *name)
{
    static uint8_t key[8];

    memset(key, 0, sizeof key);
    memcpy(key, name, strlen(name));
    return key;
}

/* A file of twenty points, and a change of it that is half made. */
static void begin(void)
{
    const char *place = getenv("FUZZ_PLACE");

    target = getenv("FUZZ");
    must(target != NULL && place != NULL, "FUZZ and FUZZ_PLACE are set");
    snprintf(site, sizeof site, "%s/site", place);
    snprintf(input, sizeof input, "%s/input", place);
    snprintf(journal, sizeof journal, "%s.journal", site);
    snprintf(records, sizeof records, "%s/records", place);
    must(bhtf_create(first, SIZE, 8, 60, 3) == 0, "create");
    for (int i = 0; i < 20; i++) {
        char name[8];

        snprintf(name, sizeof name, "P%d", i);
        must(bhtf_add(first, SIZE, key_of(name), 8,
                      (const uint8_t *)"1.5,2.5,3.5,note", 16, 1) == 0, "add");
    }
    memcpy(half, first, SIZE);
    must(bhtf_add(half, SIZE, key_of("X"), 8, (const uint8_t *)"half", 4, 1) ==
         0, "add");
    memcpy(half, first, 2048);
    must(freopen("/dev/null", "w", stdout) != NULL, "/dev/null");
}

/* ---- each input ---- */

static void try_file(const uint8_t *bytes, size_t length)
{
    put_file(site, bytes, length);
    unlink(journal);
    RUN("check", site);
    RUN("list", site, "--long");
    RUN("list", site, "--json");
    RUN("stat", site);
    RUN("book", site);
    RUN("dump", site);
    RUN("export", site);
    RUN("export", site, "--gsi");
    RUN("export", site, "--landxml");
    RUN("export", site, "--dxf");
    RUN("get", site, "P1", "P2");
    RUN("plot", site);
    put_file(input, first, SIZE);
    RUN("diff", site, input);
    unlink(input);
    RUN("convert", site, input, "--no-sync");
    RUN("compact", site, "--no-sync");
    RUN("add", site, "NEW", "text", "--no-sync");
    RUN("delete", site, "P3", "--no-sync");
    RUN("withdraw", site, "P4", "--no-sync");
}

static void try_import(const uint8_t *bytes, size_t length, char *option)
{
    put_file(site, first, SIZE);
    put_file(input, bytes, length);
    unlink(journal);
    RUN("import", site, input, "--replace", "--no-sync", "--quiet", option);
    RUN("import", site, input, "--dry-run", option);
}

static void try_dump(const uint8_t *bytes, size_t length)
{
    unlink(site);
    unlink(journal);
    put_file(input, bytes, length);
    RUN("load", site, input, "--no-sync", "--size", "64K");
}

/* Records whose sums are right. */
static void make_right(uint8_t *bytes, size_t length)
{
    struct bhtf_delta d;
    size_t at = 0;

    while (bhtf_delta_head(bytes + at, length - at, &d) == BHTF_ACCEPTED &&
           d.size <= length - at) {
        size_t body = d.size - BHTF_SUM;

        bytes[at + 12] = bytes[at + 13] = bytes[at + 15] = 0;
        bytes[at + 14] = SIZE >> 8;
        if (at == 0)
            bhtf_sum(first, SIZE, bytes + 16);
        bhtf_sum(bytes + at, body, bytes + at + body);
        at += d.size;
    }
}

static void try_delta(uint8_t *bytes, size_t length, int right)
{
    if (right)
        make_right(bytes, length);
    put_file(site, first, SIZE);
    unlink(journal);
    put_file(input, bytes, length);
    put_file(records, bytes, length);
    RUN("apply", site, input, "--no-sync", "--quiet");
    RUN("add", site, "NEW", "text", "--no-sync", "--delta", records);
}

/* Do pairs lie in the image, so that sums can be taken over them? */
static int pairs_lie(const uint8_t *content, size_t length)
{
    uint64_t last = 0, count = length < 4 ? length : layer_u32(content);

    if (length < 4 + 8 * count)
        return 0;
    for (uint64_t i = 0; i < count; i++) {
        uint64_t from = layer_u32(content + 4 + 8 * i);

        if (from < last || from + layer_u32(content + 8 + 8 * i) > SIZE)
            return 0;
        last = from + layer_u32(content + 8 + 8 * i);
    }
    return 1;
}

static void make_journal_right(uint8_t *bytes, size_t length)
{
    const uint8_t *content = bytes + LAYER_PAGE;
    struct head h;

    if (length < JOURNAL_LEAST)
        return;
    layer_take_head(bytes, &h);
    h.number[JOURNAL_LENGTH] = length / LAYER_PAGE * LAYER_PAGE;
    h.number[FILE_LENGTH] = SIZE;
    h.number[REACH] %= SIZE + 1;
    h.number[CONTENT_LENGTH] %= length - 2 * LAYER_PAGE + 1;
    h.number[CONTENT_SUM] = layer_content_sum(bytes + LAYER_PAGE,
                                              h.number[CONTENT_LENGTH]);
    if (bytes[HEAD_BYTES] % 2 == 0 &&
        pairs_lie(content, h.number[CONTENT_LENGTH])) {
        h.number[REACH] = SIZE;
        h.number[OTHERS_SUM] = layer_sum(half, SIZE, 0, SIZE) -
            layer_sum_met(half, SIZE, content + 4, layer_u32(content), 0) +
            layer_sum_met(half, SIZE, content + 4, layer_u32(content), 1);
    }
    layer_put_head(bytes, &h);
}

/* What reader and writer make of it. */
static void try_journal(uint8_t *bytes, size_t length, int right)
{
    const struct bhtf_file_how how = { BHTF_FILE_WRITE | BHTF_FILE_NO_SYNC, 0,
                                       NULL, NULL };
    static uint8_t seen[SIZE], now[SIZE];
    struct bhtf_file_error why, other;
    struct bhtf_file_journal about;
    bhtf_file *f;
    int refused;

    if (right)
        make_journal_right(bytes, length);
    put_file(site, half, SIZE);
    put_file(journal, bytes, length);
    bhtf_file_recover(site, BHTF_FILE_LOOK, NULL, &about, &why);
    f = bhtf_file_open(site, NULL, &why);
    refused = f == NULL;
    if (f != NULL) {
        size_t image_length;
        const uint8_t *image = bhtf_file_image(f, &image_length);

        must(image_length == SIZE, "the length");
        memcpy(seen, image, SIZE);
        bhtf_file_close(f);
    }
    must(get_file(site, now, SIZE) == SIZE && memcmp(now, half, SIZE) == 0,
         "a reader touches nothing");
    f = bhtf_file_open(site, &how, &other);
    must((f == NULL) == refused, "reader and writer agree");
    if (f != NULL)
        bhtf_file_close(f);
    must(get_file(site, now, SIZE) == SIZE, "the file is there");
    must(memcmp(now, refused ? half : seen, SIZE) == 0,
         "what is refused is not touched, and else both see the same");
    must(!refused || access(journal, F_OK) == 0, "what is refused stays");
    unlink(journal);
}

int LLVMFuzzerTestOneInput(const uint8_t *data, size_t length)
{
    uint8_t *bytes;
    int right;

    if (target == NULL)
        begin();
    if (length == 0 || length > (1u << 20))
        return 0;
    right = data[0] % 2;
    length--;
    bytes = malloc(length + 1);
    must(bytes != NULL, "memory");
    memcpy(bytes, data + 1, length);
    if (strcmp(target, "file") == 0)
        try_file(bytes, length);
    else if (strcmp(target, "csv") == 0)
        try_import(bytes, length, right ? "--any-text" : "--keep-going");
    else if (strcmp(target, "gsi") == 0)
        try_import(bytes, length, "--gsi");
    else if (strcmp(target, "landxml") == 0)
        try_import(bytes, length, "--landxml");
    else if (strcmp(target, "dump") == 0)
        try_dump(bytes, length);
    else if (strcmp(target, "delta") == 0)
        try_delta(bytes, length, right);
    else
        try_journal(bytes, length, right);
    free(bytes);
    return 0;
}
