/* Files kept from before an empty note was a note: data/version-1.0.0.bhtf and
 * data/version-1.0.1.bhtf. The library of that time wrote them, by the steps
 * below; its create wrote version 1.0.1, and the other file's last version byte
 * was set to 0 then. They must read as they did, the steps must still give
 * their bytes, and only an empty note makes their version 1.0.2. And
 * data/version-2.0.0.bhtf, by the steps of today on a file that was converted
 * before them; no step makes it another version. Each reads the same when it is
 * converted, and there and back it is itself, compacted; and when it has grown.
 * Run as: kept DIRECTORY. Ends with "N passed, 0 failed". */
#include "calls.h"

#include <stdio.h>
#include <stdlib.h>
#include <string.h>

enum { L = 8192, AT_VERSION = 7, KEY_ROOM = 8, NOTES_VERSION = 2 };
enum { ADD_NEW = 1, REPLACE = 2, APPEND = 3, WITHDRAW = 4, DELETE = 99 };

static const struct shape {
    const char *name;
    uint8_t major;
    uint8_t version; /* its last byte */
    uint8_t noted;   /* the same with an empty note */
    uint32_t key_size;
    uint32_t slots;
    uint32_t seed;
} shapes[] = {
    { "version-1.0.0.bhtf", 1, 0, NOTES_VERSION, 5, 11, 7 },
    { "version-1.0.1.bhtf", 1, 1, NOTES_VERSION, 4, 8, 0 },
    { "version-2.0.0.bhtf", 2, 0, 0, 6, 9, 3 },
};

/* A step then and now: empty data in mode 2 withdrew a message, which mode 4
 * does now, and in mode 1 entered a name without one, which mode 3 still
 * does. */
static const struct step {
    const char *key;
    const char *text;
    uint32_t then;
    uint32_t now;
} steps[] = {
    { "A1", "5407.250,3391.118,212.044,pillar", ADD_NEW, ADD_NEW },
    { "A2", "bolt in kerb", ADD_NEW, ADD_NEW },
    { "B7", "nail", ADD_NEW, ADD_NEW },
    { "C3", "", ADD_NEW, APPEND },
    { "gone", "disused", ADD_NEW, ADD_NEW },
    { "A2", "bolt", REPLACE, REPLACE },
    { "B7", "nail, plate 17", REPLACE, REPLACE },
    { "A1", ", leaning", APPEND, APPEND },
    { "D4", "seen in May", REPLACE, REPLACE },
    { "D4", "", REPLACE, WITHDRAW },
    { "gone", "", DELETE, DELETE },
    { "E5", "temporary", APPEND, APPEND },
};

/* What is looked up; NULL for no message. */
static const struct shown {
    const char *key;
    uint32_t number;
    const char *text;
} shown[] = {
    { "A1", 0, "5407.250,3391.118,212.044,pillar, leaning" },
    { "A2", 0, "bolt" },
    { "B7", 0, "nail, plate 17" },
    { "C3", 0, NULL },
    { "D4", 0, NULL },
    { "E5", 0, "temporary" },
    { "gone", 14, NULL },
    { "F6", 14, NULL },
};

enum { STEPS = sizeof steps / sizeof *steps };
enum { SHOWN = sizeof shown / sizeof *shown, POINTS = 6 };

static unsigned passed;
static unsigned failed;
static const struct shape *shape;
static uint8_t kept[L];  /* the file */
static uint8_t image[L]; /* what is worked on */
static uint8_t other[L]; /* a second one */

static void expect(const char *where, const char *what, uint32_t got,
                   uint32_t want)
{
    if (got == want) {
        passed++;
        return;
    }
    failed++;
    printf("FAILED: %s, %s, %s: got %u, expected %u\n", shape->name, where,
           what, got, want);
}

/* ---- calls ---- */

/* A name with zero bytes up to the key size. */
static const uint8_t *padded(const char *name)
{
    static uint8_t key[KEY_ROOM];

    memset(key, 0, sizeof key);
    memcpy(key, name, strlen(name));
    return key;
}

static uint32_t call(const char *name, const char *text, uint32_t mode)
{
    const uint8_t *key = padded(name);

    if (mode == DELETE)
        return subject.remove(image, L, key, shape->key_size);
    return subject.add(image, L, key, shape->key_size, (const uint8_t *)text,
                       strlen(text), mode);
}

static void look_up(const char *where, const struct shown *s)
{
    uint32_t offset = 77, length = 77;
    uint32_t number = subject.lookup(image, L, padded(s->key),
                                     shape->key_size, &offset, &length);
    uint32_t size = s->text == NULL ? 0 : (uint32_t)strlen(s->text);

    expect(where, s->key, number, s->number);
    expect(where, "has a message", offset != 0, s->text != NULL);
    expect(where, "length", length, size);
    if (s->text != NULL && length == size)
        expect(where, "text", memcmp(image + offset, s->text, size) == 0, 1);
}

static void expect_sound(const char *where)
{
    uint32_t verdict = 77, slot = 77;

    expect(where, "check", subject.check(image, L, &verdict, &slot), 0);
    expect(where, "verdict", verdict, 0);
}

static void expect_count(const char *where, uint32_t points)
{
    uint32_t count = 77;

    expect(where, "count", subject.count(image, L, &count), 0);
    expect(where, "points", count, points);
}

/* ---- reading ---- */

static void read_it(void)
{
    uint32_t slot, place = 1, from = 0, names = 0;

    memcpy(image, kept, L);
    expect("read", "version", image[AT_VERSION], shape->version);
    for (int i = 0; i < SHOWN; i++)
        look_up("read", &shown[i]);
    expect_count("read", POINTS);
    expect_sound("read");
    while (subject.walk(image, L, from, &slot, &place) == 0 && place != 0) {
        names++;
        from = slot + 1;
    }
    expect("read", "names walked", names, POINTS);
    expect("read", "bytes", memcmp(image, kept, L) == 0, 1);
}

/* The same steps in the modes of today, from a file of the old version. */
static void make_it_again(void)
{
    memset(image, 0x5A, L);
    expect("made again", "create",
           subject.create(image, L, shape->key_size, shape->slots,
                          shape->seed),
           0);
    expect("made again", "version", image[AT_VERSION], NOTES_VERSION);
    if (shape->major == 2) {
        memcpy(other, image, L);
        expect("made again", "convert", subject.convert(other, L, image, L),
               0);
    }
    image[AT_VERSION] = shape->version;
    for (int i = 0; i < STEPS; i++)
        expect("made again", steps[i].key,
               call(steps[i].key, steps[i].text, steps[i].now), 0);
    expect("made again", "bytes", memcmp(image, kept, L) == 0, 1);
}

/* ---- the version ---- */

/* One call on the file as it was; then its version. */
static void then_version(const char *what, const char *name, const char *text,
                         uint32_t mode, uint32_t number, uint32_t version)
{
    memcpy(image, kept, L);
    expect(what, "answer", call(name, text, mode), number);
    expect(what, "version", image[AT_VERSION], version);
    expect(what, "the bytes before it", memcmp(image, kept, AT_VERSION), 0);
    expect_sound(what);
}

static void leave_version(void)
{
    const uint32_t v = shape->version;

    then_version("new point", "F6", "text", ADD_NEW, 0, v);
    then_version("replaced in place", "A2", "bo", REPLACE, 0, v);
    then_version("replaced", "A2", "a bolt in the kerb", REPLACE, 0, v);
    then_version("replaced by itself", "A2", "bolt", REPLACE, 0, v);
    then_version("withdrawn one replaced", "D4", "seen", REPLACE, 0, v);
    then_version("point without a message replaced", "C3", "c", REPLACE, 0,
                 v);
    then_version("appended", "A1", "!", APPEND, 0, v);
    then_version("nothing appended", "A1", "", APPEND, 0, v);
    then_version("a new point, nothing appended", "F6", "", APPEND, 0, v);
    then_version("withdrawn", "A1", "", WITHDRAW, 0, v);
    then_version("withdrawn, with data", "A1", "data", WITHDRAW, 0, v);
    then_version("withdrawn twice", "D4", "", WITHDRAW, 0, v);
    then_version("nothing withdrawn", "C3", "", WITHDRAW, 0, v);
    then_version("deleted", "A1", "", DELETE, 0, v);
    then_version("absent, withdrawn", "F6", "", WITHDRAW, 14, v);
    then_version("present, new", "A1", "", ADD_NEW, 9, v);
    then_version("mode 5", "A1", "", 5, 8, v);
}

/* No room for a header: the version stays. */
static void refuse_note(void)
{
    static char text[L];

    memcpy(image, kept, L);
    memset(text, 't', L - 1);
    while (call("A1", text, REPLACE) == 13)
        text[strlen(text) - 1] = 0;
    expect("full", "X", memcmp(image + 52, "\0\0\x20\0", 4), 0);
    expect("full", "empty note", call("F6", "", ADD_NEW), 13);
    expect("full", "empty note, replace", call("C3", "", REPLACE), 13);
    expect("full", "version", image[AT_VERSION], shape->version);
    expect("full", "nothing appended", call("F6", "", APPEND), 0);
    expect("full", "version", image[AT_VERSION], shape->version);
    expect("full", "in place", call("D4", "", REPLACE), 0);
    expect("full", "version then", image[AT_VERSION], shape->noted);
    expect_sound("full");
}

/* The others read as before. */
static void note_of(const char *what, const char *name, uint32_t mode)
{
    const struct shown note = { name, 0, "" };

    then_version(what, name, "", mode, 0, shape->noted);
    for (int i = 0; i < SHOWN; i++)
        if (strcmp(shown[i].key, name) != 0)
            look_up(what, &shown[i]);
    look_up(what, &note);
}

static void store_notes(void)
{
    note_of("note, new point", "F6", ADD_NEW);
    expect_count("note, new point", POINTS + 1);
    note_of("note, new point replaced", "F6", REPLACE);
    note_of("note in a message's place", "A2", REPLACE);
    note_of("note in a withdrawn one's place", "D4", REPLACE);
    note_of("note where no message was", "C3", REPLACE);
}

/* ---- the other version ---- */

static void expect_version(const char *where, uint32_t major, uint32_t last)
{
    expect(where, "major version", image[5], major);
    expect(where, "version's middle", image[6], 0);
    expect(where, "last version byte", image[AT_VERSION], last);
}

/* The kept file in the other version, and back. */
static void convert_it(void)
{
    memset(image, 0x5A, L);
    expect("converted", "answer", subject.convert(kept, L, image, L), 0);
    expect_version("converted", 3 - shape->major, shape->major == 2 ? 2 : 0);
    for (int i = 0; i < SHOWN; i++)
        look_up("converted", &shown[i]);
    expect_count("converted", POINTS);
    expect_sound("converted");
    memcpy(other, image, L);
    expect("back", "answer", subject.convert(other, L, image, L), 0);
    expect_version("back", shape->major, shape->major == 2 ? 0 : 2);
    memcpy(other, kept, L);
    expect("back", "the kept file, compacted", subject.compact(other, L), 0);
    other[AT_VERSION] = image[AT_VERSION];
    expect("back", "bytes", memcmp(image, other, L) == 0, 1);
}

/* ---- growth ---- */

/* The kept file grows into a new one of its version: appending nothing to a point
 * moves that point and eight more, and so all of them. */
static void grow_it(void)
{
    const uint8_t *key = padded(shown[0].key);

    memcpy(other, kept, L);
    memset(image, 0x5A, L);
    expect("grown", "create", subject.create(image, L, shape->key_size,
                                             2 * shape->slots, 0), 0);
    image[5] = shape->major;
    image[AT_VERSION] = shape->version;
    expect("grown", "start", subject.grow(other, L, image, L), 0);
    expect("grown", "nothing appended",
           subject.grow_add(other, L, image, L, key, shape->key_size, NULL, 0,
                            APPEND), 0);
    for (int i = 0; i < SHOWN; i++)
        look_up("grown", &shown[i]);
    expect_version("grown", shape->major, shape->version);
    expect_count("grown", POINTS);
    expect_sound("grown");
}

static int load(const char *directory)
{
    char path[4096];
    FILE *file;
    size_t size;

    snprintf(path, sizeof path, "%s/%s", directory, shape->name);
    file = fopen(path, "rb");
    if (file == NULL) {
        perror(path);
        return 0;
    }
    size = fread(kept, 1, L, file);
    fclose(file);
    return size == L;
}

int main(int argc, char **argv)
{
    if (argc != 2) {
        fputs("usage: kept DIRECTORY\n", stderr);
        return 2;
    }
    for (size_t i = 0; i < sizeof shapes / sizeof *shapes; i++) {
        shape = &shapes[i];
        if (!load(argv[1]))
            return 2;
        read_it();
        make_it_again();
        leave_version();
        refuse_note();
        store_notes();
        convert_it();
        grow_it();
    }
    printf("%u passed, %u failed\n", passed, failed);
    return failed != 0;
}
