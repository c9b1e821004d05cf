/* deltas DIRECTORY SEED: the calls of bhtf_delta.h, one by one, their answers
 * and what they leave. The directory is empty. The last line is 'N passed, M
 * failed'. */
#define _GNU_SOURCE

#include "../../host/include/bhtf_delta.h"

#include <errno.h>
#include <stdio.h>
#include <stdlib.h>
#include <string.h>
#include <sys/stat.h>
#include <sys/syscall.h>
#include <sys/wait.h>
#include <unistd.h>

enum { SIZE = 32768, KEY = 8, SLOTS = 100 };

static int passed, failed;
static char file[600], link_name[600], journal[600], draft[600];
static uint8_t monday[SIZE], tuesday[SIZE], wednesday[SIZE], copy[SIZE];
static uint8_t work[SIZE], step[SIZE + BHTF_DELTA_MOST];
static uint8_t step2[SIZE + BHTF_DELTA_MOST];
static uint8_t both[2 * SIZE];
static size_t step_size, step2_size;

static void holds(const char *name, int is)
{
    printf("%s: %s\n", is ? "ok" : "FAILED", name);
    *(is ? &passed : &failed) += 1;
}

static void must(int is, const char *what)
{
    if (is)
        return;
    printf("FAILED: %s\n", what);
    exit(2);
}

static const uint8_t *key(const char *name)
{
    static uint8_t bytes[KEY];

    memset(bytes, 0, KEY);
    memcpy(bytes, name, strlen(name));
    return bytes;
}

static void put(uint8_t *image, const char *name, const char *text)
{
    must(bhtf_add(image, SIZE, key(name), KEY, (const uint8_t *)text,
                  strlen(text), BHTF_REPLACE) == 0, "add");
}

static void make_days(void)
{
    must(bhtf_create(monday, SIZE, KEY, SLOTS, 7) == 0, "create");
    put(monday, "CP-1", "first");
    put(monday, "CP-2", "second");
    memcpy(tuesday, monday, SIZE);
    put(tuesday, "CP-1", "another");
    must(bhtf_delete(tuesday, SIZE, key("CP-2"), KEY) == 0, "delete");
    put(tuesday, "CP-3", "third");
    memcpy(wednesday, tuesday, SIZE);
    put(wednesday, "CP-4", "");
}

static int same(const uint8_t *a, const uint8_t *b)
{
    return memcmp(a, b, SIZE) == 0;
}

/* ---- making and reading ---- */

static void try_make(void)
{
    uint8_t sum[BHTF_SUM];
    size_t size, least = 0;
    uint8_t none[1];

    holds("a slice of length 0 asks for the size",
          bhtf_delta_make(monday, tuesday, SIZE, NULL, NULL, 0, &least) ==
          BHTF_DELTA_ROOM && least > 116 && least < 1000);
    memset(step, 7, sizeof step);
    holds("a byte too few is refused, and nothing written",
          bhtf_delta_make(monday, tuesday, SIZE, NULL, step, least - 1,
                          &step_size) == BHTF_DELTA_ROOM && step[0] == 7);
    holds("as many are enough",
          bhtf_delta_make(monday, tuesday, SIZE, NULL, step, least,
                          &step_size) == 0 && step_size == least &&
          step[least] == 7);
    bhtf_sum(tuesday, SIZE, sum);
    holds("with the sum that is known",
          bhtf_delta_make(tuesday, wednesday, SIZE, sum, step2, sizeof step2,
                          &step2_size) == 0 &&
          memcmp(step2 + 16, step + 48, BHTF_SUM) == 0);
    holds("an image of no length", bhtf_delta_make(none, none, 0, NULL, step2,
          0, &size) == BHTF_BAD_LENGTH && size == 0);
    memcpy(copy, monday, SIZE);
    copy[0] = 'X';
    holds("what is no image", bhtf_delta_make(monday, copy, SIZE, NULL, NULL, 0,
          &size) == BHTF_BAD_VERSION && size == 0);
    holds("equal images have the least record",
          bhtf_delta_make(monday, monday, SIZE, NULL, NULL, 0, &size) ==
          BHTF_DELTA_ROOM && size == 116);
}

static void try_read(void)
{
    struct bhtf_delta head, all;
    struct bhtf_stretch s = { 0, 0, 0, 0 };
    uint32_t count = 0, end = 0;
    int rising = 1;

    holds("a head", bhtf_delta_head(step, BHTF_DELTA_HEAD, &head) == 0 &&
          head.size == step_size && head.image_len == SIZE &&
          head.stretches == 0);
    holds("a byte less of it", bhtf_delta_head(step, BHTF_DELTA_HEAD - 1,
          &all) == BHTF_DELTA_CUT && all.size == 0);
    holds("no byte of it", bhtf_delta_head(step, 0, &all) == BHTF_DELTA_CUT);
    holds("another word", bhtf_delta_head(monday, SIZE, &all) ==
          BHTF_DELTA_NONE);
    holds("all of it", bhtf_delta_check(step, step_size, &all) == 0 &&
          all.stretches > 0);
    holds("with the same sums",
          memcmp(all.before, head.before, BHTF_SUM) == 0 &&
          memcmp(all.after, head.after, BHTF_SUM) == 0);
    memcpy(copy, monday, SIZE);
    while (bhtf_delta_next(step, &s)) {
        count++;
        rising = rising && s.offset >= end && s.number == count;
        end = s.offset + s.length;
        memcpy(copy + s.offset, step + s.at, s.length);
    }
    holds("its stretches, rising", count == all.stretches && rising);
    holds("and they are what changed", same(copy, tuesday));
    holds("no more of them", !bhtf_delta_next(step, &s) && s.number == count);
}

/* Every byte of a record, flipped; and every length of it. */
static void try_damage(void)
{
    struct bhtf_delta d;
    size_t missed = 0, uncut = 0;

    for (size_t i = 0; i < step_size; i++) {
        step[i] ^= 1;
        missed += bhtf_delta_check(step, step_size, &d) == 0;
        step[i] ^= 1;
        uncut += bhtf_delta_check(step, i, &d) != BHTF_DELTA_CUT;
    }
    holds("each byte flipped is seen", missed == 0);
    holds("each length cut is seen", uncut == 0);
    step[5]++;
    holds("a later version", bhtf_delta_check(step, step_size, &d) ==
          BHTF_DELTA_VERSION);
    step[5]--;
}

/* ---- applying, in memory ---- */

static uint32_t apply(const uint8_t *records, size_t size, const uint8_t *end,
                      struct bhtf_applied *done)
{
    return bhtf_delta_apply(copy, SIZE, records, size, end, work, SIZE, done);
}

static void join(const uint8_t *a, size_t a_size, const uint8_t *b,
                 size_t b_size)
{
    memcpy(both, a, a_size);
    memcpy(both + a_size, b, b_size);
}

static void try_apply(void)
{
    struct bhtf_applied done;
    uint8_t end[BHTF_SUM];

    memcpy(copy, monday, SIZE);
    holds("a record is applied", apply(step, step_size, NULL, &done) == 0 &&
          done.applied == 1 && done.passed == 0 && same(copy, tuesday));
    holds("once", apply(step, step_size, NULL, &done) == 0 &&
          done.applied == 0 && done.passed == 1 && same(copy, tuesday));
    bhtf_sum(tuesday, SIZE, end);
    holds("the sum is told", memcmp(end, done.sum, BHTF_SUM) == 0);
    memcpy(copy, monday, SIZE);
    join(step, step_size, step2, step2_size);
    holds("two, one behind the other",
          apply(both, step_size + step2_size, NULL, &done) == 0 &&
          done.applied == 2 && same(copy, wednesday));
    memcpy(copy, tuesday, SIZE);
    holds("of which it has the first",
          apply(both, step_size + step2_size, NULL, &done) == 0 &&
          done.applied == 1 && done.passed == 1 && same(copy, wednesday));
    holds("both of which it has",
          apply(both, step_size + step2_size, NULL, &done) == 0 &&
          done.applied == 0 && done.passed == 2);
    memcpy(copy, monday, SIZE);
    holds("a gap", apply(step2, step2_size, NULL, &done) == BHTF_DELTA_GAP &&
          done.record == 0 && same(copy, monday));
    join(step2, step2_size, step, step_size);
    holds("the wrong order", apply(both, step_size + step2_size, NULL, &done) ==
          BHTF_DELTA_GAP && same(copy, monday) && done.applied == 0);
    join(step, step_size, step2, step2_size - 1);
    holds("the second is cut", apply(both, step_size + step2_size - 1, NULL,
          &done) == BHTF_DELTA_CUT && done.record == 1 && same(copy, monday));
    holds("no record", apply(both, 0, NULL, &done) == BHTF_DELTA_CUT);
    holds("another end than the one wanted",
          apply(step, step_size, monday, &done) == BHTF_DELTA_END &&
          same(copy, monday) && done.sum[0] == 0 && done.applied == 0);
    holds("the one wanted", apply(step, step_size, end, &done) == 0);
    memcpy(copy, monday, SIZE);
    holds("a short working slice",
          bhtf_delta_apply(copy, SIZE, step, step_size, NULL, work, SIZE - 1,
                           &done) == BHTF_SHORT_SLICE && same(copy, monday));
    holds("a shorter image", bhtf_delta_apply(copy, 4096, step, step_size,
          NULL, work, SIZE, &done) != 0 && same(copy, monday));
}

/* Records with right sums that do not keep their promise. */
static void try_forged(void)
{
    struct bhtf_applied done;
    size_t at = step_size - BHTF_SUM;
    uint8_t kept[BHTF_SUM];

    memcpy(copy, monday, SIZE);
    memcpy(kept, step + at, BHTF_SUM);
    step[at - 1] ^= 1;
    bhtf_sum(step, at, step + at);
    holds("new bytes that do not lead there",
          apply(step, step_size, NULL, &done) == BHTF_DELTA_FALSE &&
          done.record == 0 && same(copy, monday));
    step[at - 1] ^= 1;
    step[87]++;
    bhtf_sum(step, at, step + at);
    holds("pairs out of order or too far",
          apply(step, step_size, NULL, &done) != 0 && same(copy, monday));
    step[87]--;
    step[83]++;
    bhtf_sum(step, at, step + at);
    holds("a pair too many", apply(step, step_size, NULL, &done) ==
          BHTF_DELTA_WRONG && same(copy, monday));
    step[83]--;
    memcpy(step + at, kept, BHTF_SUM);
    holds("and as it was", apply(step, step_size, NULL, &done) == 0);
}

/* ---- files ---- */

static bhtf_file *open_writer(const char *path)
{
    const struct bhtf_file_how how = { BHTF_FILE_WRITE | BHTF_FILE_NO_SYNC, 0,
                                       NULL, NULL };
    bhtf_file *f = bhtf_file_open(path, &how, NULL);

    must(f != NULL, "a writer");
    return f;
}

static void make_file(const uint8_t *image)
{
    unlink(file);
    unlink(journal);
    must(bhtf_file_create(file, image, SIZE, NULL, NULL) == 0, "a file");
}

static int file_is(const uint8_t *image, size_t size)
{
    bhtf_file *f = bhtf_file_open(file, NULL, NULL);
    const uint8_t *bytes;
    size_t length;
    int is;

    if (f == NULL)
        return 0;
    bytes = bhtf_file_image(f, &length);
    is = length == size && memcmp(bytes, image, size) == 0;
    bhtf_file_close(f);
    return is;
}

static void try_file_apply(void)
{
    struct bhtf_applied done;
    uint8_t sum[BHTF_SUM], is[BHTF_SUM];
    bhtf_file *f;
    size_t size;

    make_file(monday);
    f = open_writer(file);
    join(step, step_size, step2, step2_size);
    holds("a file that is behind",
          bhtf_file_apply(f, step2, step2_size, NULL, &done) ==
          BHTF_DELTA_GAP && strstr(bhtf_file_error(f)->words, "record 1") !=
          NULL && file_is(monday, SIZE));
    holds("follows", bhtf_file_apply(f, both, step_size + step2_size, NULL,
          &done) == 0 && done.applied == 2 && file_is(wednesday, SIZE));
    bhtf_sum(wednesday, SIZE, sum);
    holds("its sum", bhtf_file_sum(f, is) == 0 &&
          memcmp(sum, is, BHTF_SUM) == 0 &&
          memcmp(sum, done.sum, BHTF_SUM) == 0);
    bhtf_file_close(f);
    make_file(monday);
    f = open_writer(file);
    must(bhtf_file_begin(f) == 0, "a batch");
    holds("in a batch", bhtf_file_apply(f, step, step_size, NULL, &done) == 0 &&
          file_is(monday, SIZE));
    holds("that is undone", bhtf_file_rollback(f) == 0 &&
          file_is(monday, SIZE) && bhtf_file_sum(f, is) == 0 &&
          memcmp(is, step + 16, BHTF_SUM) == 0);
    bhtf_file_close(f);
    f = bhtf_file_open(file, NULL, NULL);
    holds("a reader applies nothing",
          bhtf_file_apply(f, step, step_size, NULL, &done) ==
          BHTF_FILE_MISUSE);
    holds("and has no batch", bhtf_file_delta(f, both, SIZE, &size) ==
          BHTF_FILE_MISUSE && bhtf_file_before(f, &size) == NULL);
    bhtf_file_pause(f);
    holds("a paused one has no sum", bhtf_file_sum(f, is) == BHTF_FILE_MISUSE);
    bhtf_file_close(f);
}

/* A record from a change, and the points that it changes. */
static void try_change(void)
{
    struct bhtf_change c = { 0, 0, 0, 0, 0, 0, 0, 0 };
    uint32_t kinds[5] = { 0, 0, 0, 0, 0 };
    const uint8_t *image, *before;
    size_t length, size;
    bhtf_file *f;

    make_file(monday);
    f = open_writer(file);
    holds("no record without a batch", bhtf_file_delta(f, both, SIZE, &size) ==
          BHTF_FILE_MISUSE);
    must(bhtf_file_begin(f) == 0 &&
         bhtf_file_replace(f, key("CP-1"), KEY, (const uint8_t *)"another",
                           7) == 0 &&
         bhtf_file_delete(f, key("CP-2"), KEY) == 0 &&
         bhtf_file_replace(f, key("CP-3"), KEY, (const uint8_t *)"third",
                           5) == 0, "changes");
    holds("a record of a batch", bhtf_file_delta(f, both, sizeof both, &size) ==
          0 && size == step_size && memcmp(both, step, size) == 0);
    image = bhtf_file_image(f, &length);
    before = bhtf_file_before(f, &length);
    holds("the file beside it", length == SIZE && same(before, monday) &&
          same(image, tuesday));
    while (bhtf_file_changes(f, &c) == 0 && c.kind != 0) {
        kinds[c.kind]++;
        if (c.kind == BHTF_POINT_OTHER)
            holds("a point with another text",
                  strcmp((const char *)image + c.key_offset, "CP-1") == 0 &&
                  memcmp(before + c.old_offset, "first", 5) == 0 &&
                  memcmp(image + c.new_offset, "another", 7) == 0);
        if (c.kind == BHTF_POINT_GONE)
            holds("one that is gone",
                  strcmp((const char *)before + c.key_offset, "CP-2") == 0 &&
                  c.new_offset == 0);
        if (c.kind == BHTF_POINT_NEW)
            holds("a new one",
                  strcmp((const char *)image + c.key_offset, "CP-3") == 0 &&
                  c.old_offset == 0);
    }
    holds("and no others", kinds[1] == 1 && kinds[2] == 1 && kinds[3] == 1 &&
          kinds[4] == 0);
    holds("committed", bhtf_file_commit(f) == 0 && file_is(tuesday, SIZE));
    holds("then none is open", bhtf_file_changes(f, &c) == BHTF_FILE_MISUSE);
    bhtf_file_close(f);
}

static void try_other_keys(void)
{
    struct bhtf_change c = { 0, 0, 0, 0, 0, 0, 0, 0 };

    must(bhtf_create(copy, SIZE, KEY + 1, SLOTS, 7) == 0, "create");
    holds("images of other keys are not compared",
          bhtf_changes(monday, SIZE, copy, SIZE, &c) == BHTF_BAD_KEY &&
          c.kind == 0);
}

/* ---- a whole image in the place of a file ---- */

static uint32_t put_file(const char *path, const uint8_t *image, size_t size)
{
    struct bhtf_file_options options = BHTF_FILE_OPTIONS;

    options.wait = 0;
    return bhtf_file_put(path, image, size, &options, NULL);
}

static mode_t rights(const char *path)
{
    struct stat about;

    return stat(path, &about) == 0 ? about.st_mode & 0777 : 0;
}

/* Leaves a change unfinished: ends where the stretches would be flushed. */
static void leave_journal(void)
{
    pid_t child = fork();
    int status;

    if (child == 0) {
        const struct bhtf_file_how how = { BHTF_FILE_WRITE, 0, NULL, NULL };
        bhtf_file *f = bhtf_file_open(file, &how, NULL);

        setenv("BHTF_TEST_END", "3", 1);
        bhtf_file_replace(f, key("CP-9"), KEY, (const uint8_t *)"nine", 4);
        _exit(0);
    }
    must(child > 0 && waitpid(child, &status, 0) == child, "a child");
    must(access(journal, F_OK) == 0, "an unfinished change");
}

/* In the place of the library's: a process ends before the chosen one of its
 * calls that change a disk or wait for it. */
static int ends_at, steps;

static void count_step(void)
{
    if (ends_at > 0 && ++steps == ends_at)
        _exit(7);
}

int fdatasync(int fd)
{
    static int calls;
    const char *end = getenv("BHTF_TEST_END");

    if (end != NULL && ++calls == atoi(end))
        _exit(7);
    count_step();
    return (int)syscall(SYS_fdatasync, fd);
}

int fsync(int fd)
{
    count_step();
    return (int)syscall(SYS_fsync, fd);
}

int msync(void *at, size_t length, int flags)
{
    count_step();
    return (int)syscall(SYS_msync, at, length, flags);
}

int linkat(int from, const char *old, int to, const char *new, int flags)
{
    count_step();
    return (int)syscall(SYS_linkat, from, old, to, new, flags);
}

int unlinkat(int directory, const char *name, int flags)
{
    count_step();
    return (int)syscall(SYS_unlinkat, directory, name, flags);
}

int renameat(int from, const char *old, int to, const char *new)
{
    count_step();
    return (int)syscall(SYS_renameat2, from, old, to, new, 0);
}

/* Puts an image, and ends before so many steps: did it come to its end? */
static int put_cut(const uint8_t *image, size_t size, int at)
{
    pid_t child = fork();
    int status;

    if (child == 0) {
        ends_at = at;
        _exit(bhtf_file_put(file, image, size, NULL, NULL) == 0 ? 0 : 1);
    }
    must(child > 0 && waitpid(child, &status, 0) == child, "a child");
    must(WIFEXITED(status) && WEXITSTATUS(status) != 1, "a put");
    return WEXITSTATUS(status) == 0;
}

/* Cut before each of its steps, over a file whose change is unfinished, it
 * leaves the old file or the new one, and the next put is not in its way. */
static void try_put_cut(void)
{
    static uint8_t longer[2 * SIZE], finished[SIZE];
    int cuts = 0, old = 0, new = 0, whole = 0;
    int ended = 0;

    must(bhtf_create(longer, sizeof longer, KEY, SLOTS, 1) == 0, "create");
    memcpy(finished, monday, SIZE);
    put(finished, "CP-9", "nine");
    while (!ended) {
        make_file(monday);
        leave_journal();
        ended = put_cut(longer, sizeof longer, ++cuts);
        if (file_is(finished, SIZE))
            old++;
        else if (file_is(longer, sizeof longer))
            new++;
        whole += put_file(file, tuesday, SIZE) == 0 && file_is(tuesday, SIZE) &&
                 access(draft, F_OK) != 0 && access(journal, F_OK) != 0;
    }
    holds("cut before each step: the old file or the new one",
          old + new == cuts && old >= 4 && new >= 2);
    holds("and the next put is whole", whole == cuts);
    unlink(file);
}

static void try_put(void)
{
    static uint8_t longer[2 * SIZE], unfinished[SIZE];
    struct bhtf_file_error why;
    bhtf_file *reader, *writer;
    size_t length;
    FILE *other;

    unlink(file);
    holds("where there is none, put makes a file",
          put_file(file, monday, SIZE) == 0 && file_is(monday, SIZE));
    must(chmod(file, 0640) == 0, "chmod");
    reader = bhtf_file_open(file, NULL, NULL);
    must(reader != NULL, "a reader");
    holds("it takes the place of one that is read",
          put_file(file, tuesday, SIZE) == 0 && file_is(tuesday, SIZE));
    holds("with its rights", rights(file) == 0640);
    holds("the reader has the old one", same(bhtf_file_image(reader, &length),
          monday));
    holds("until it looks again", bhtf_file_refresh(reader) == 0 &&
          same(bhtf_file_image(reader, &length), tuesday));
    must(bhtf_create(longer, sizeof longer, KEY, SLOTS, 1) == 0, "create");
    holds("one of another length", put_file(file, longer, sizeof longer) == 0 &&
          file_is(longer, sizeof longer));
    holds("which the reader sees", bhtf_file_refresh(reader) == 0 &&
          bhtf_file_image(reader, &length) != NULL &&
          length == sizeof longer);
    bhtf_file_close(reader);
    holds("nothing is left over", access(draft, F_OK) != 0 &&
          access(journal, F_OK) != 0);

    make_file(monday);
    leave_journal();
    memcpy(unfinished, wednesday, SIZE);
    holds("over an unfinished change", put_file(file, unfinished, SIZE) == 0 &&
          file_is(wednesday, SIZE) && access(journal, F_OK) != 0);

    writer = open_writer(file);
    holds("a writer is waited for", put_file(file, monday, SIZE) ==
          BHTF_FILE_LOCKED && file_is(wednesday, SIZE));
    bhtf_file_close(writer);
    must(symlink(file, link_name) == 0, "a link");
    holds("through a link", put_file(link_name, monday, SIZE) == 0 &&
          file_is(monday, SIZE));
    copy[5] = 9;
    holds("what is no image is refused", bhtf_file_put(file, copy, SIZE, NULL,
          &why) == BHTF_BAD_VERSION && strstr(why.words, "new image") != NULL &&
          file_is(monday, SIZE));
    unlink(file);
    other = fopen(file, "w");
    must(other != NULL && fputs("root:x:0:0\n", other) > 0 &&
         fclose(other) == 0, "another file");
    holds("and so is another file's place", bhtf_file_put(file, monday, SIZE,
          NULL, &why) == BHTF_BAD_VERSION && strstr(why.words, "not replaced")
          != NULL);
    unlink(file);
}

/* ---- by chance ---- */

static uint32_t chance;

static uint32_t next(uint32_t below)
{
    chance = chance * 1664525u + 1013904223u;
    return (chance >> 8) % below;
}

static void change_some(uint8_t *image)
{
    char name[16], text[64];

    for (uint32_t n = 1 + next(6); n > 0; n--) {
        snprintf(name, sizeof name, "P%u", (unsigned)next(60));
        memset(text, 'a' + (int)next(26), sizeof text);
        text[next(sizeof text)] = '\0';
        text[sizeof text - 1] = '\0';
        if (next(4) == 0)
            bhtf_delete(image, SIZE, key(name), KEY);
        else
            bhtf_add(image, SIZE, key(name), KEY, (const uint8_t *)text,
                     strlen(text), BHTF_REPLACE);
        if (next(20) == 0)
            bhtf_compact(image, SIZE);
    }
}

/* A chain of states, and from each of them the records to the end, from a
 * chosen one on. */
static int follow_chain(void)
{
    enum { STATES = 6 };
    static uint8_t states[STATES][SIZE], chain[STATES * (SIZE + 200)];
    size_t at[STATES], size, used = 0;
    struct bhtf_applied done;
    uint32_t from;

    memcpy(states[0], monday, SIZE);
    for (int i = 1; i < STATES; i++) {
        memcpy(states[i], states[i - 1], SIZE);
        change_some(states[i]);
        at[i] = used;
        if (bhtf_delta_make(states[i - 1], states[i], SIZE, NULL, chain + used,
                            sizeof chain - used, &size) != 0 ||
            size > SIZE + BHTF_DELTA_MOST)
            return 0;
        used += size;
    }
    from = next(STATES);
    memcpy(copy, states[from], SIZE);
    size = at[1 + next(from > 0 ? from : 1)];
    return apply(chain + size, used - size, NULL, &done) == 0 &&
           same(copy, states[STATES - 1]);
}

static void try_chance(int turns)
{
    int followed = 0;

    for (int i = 0; i < turns; i++)
        followed += follow_chain();
    holds("random chains are followed from each of their states",
          followed == turns);
}

int main(int argc, char **argv)
{
    if (argc != 3)
        return 2;
    chance = (uint32_t)atol(argv[2]);
    snprintf(file, sizeof file, "%s/site", argv[1]);
    snprintf(link_name, sizeof link_name, "%s/link", argv[1]);
    snprintf(journal, sizeof journal, "%s/site.journal", argv[1]);
    snprintf(draft, sizeof draft, "%s/site.new", argv[1]);
    make_days();
    try_make();
    try_read();
    try_damage();
    try_apply();
    try_forged();
    try_file_apply();
    try_change();
    try_other_keys();
    try_put();
    try_put_cut();
    try_chance(200);
    printf("%d passed, %d failed\n", passed, failed);
    return failed != 0;
}
