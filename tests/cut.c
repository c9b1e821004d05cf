/* Cuts. Random adds, deletes and compactions by way of a journal are taken
 * apart into their writes, as 02-change-requests.md orders them: the journal's
 * content, the mark, each stretch of the image, the mark again. The call is cut
 * at every write, before, behind and inside it, where its bytes may be
 * anything; then recovery must give the image before the call, or, once the
 * mark was written, the one after it, and a second recovery must change
 * nothing. Recovery is cut in the same way, and called again.
 * That the call's own writes come in this order is seen by pages that may not
 * be written: the first write to the mark's page, to the image, and to the
 * mark's page again, stops the call, and what was written before is compared.
 *
 * Options: --seed N, --calls N. Ends with "N passed, M failed", each call being
 * one. */
#define _DEFAULT_SOURCE

#include "calls.h"

#include <signal.h>
#include <stdio.h>
#include <stdlib.h>
#include <string.h>
#include <sys/mman.h>
#include <time.h>
#include <unistd.h>

enum { PAGE = 4096, MARK = 0xA5, PAIR = 8, NAMES = 24, TEXT = 200 };
enum { LONGEST = 64 * PAGE, JOURNAL_MOST = 4 + 5 * LONGEST + 2 * PAGE };

static uint64_t seed, calls = 1500;
static uint64_t cuts, second_cuts;
static unsigned passed, failed;

/* ---- random numbers ---- */

static uint64_t random_state;

static uint32_t random32(void)
{
    uint64_t z = random_state += 0x9E3779B97F4A7C15u;

    z = (z ^ z >> 30) * 0xBF58476D1CE4E5B9u;
    z = (z ^ z >> 27) * 0x94D049BB133111EBu;
    return (uint32_t)((z ^ z >> 31) >> 32);
}

static uint32_t below(uint32_t n)
{
    return (uint32_t)((uint64_t)random32() * n >> 32);
}

static void fill_random(uint8_t *at, size_t size)
{
    for (size_t i = 0; i < size; i++)
        at[i] = (uint8_t)random32();
}

/* ---- the call and its writes ---- */

enum kind { ADD, DELETE, COMPACT };

struct call {
    enum kind kind;
    uint8_t key[3];
    uint8_t data[TEXT];
    size_t data_len;
    uint32_t mode;
};

static struct call call;
static uint32_t key_size;
static size_t length;      /* of the image */
static uint8_t *before;    /* the images */
static uint8_t *after;
static uint8_t *content;   /* what the journal takes */
static size_t content_len;
static uint8_t *lent;      /* the journal before the call */
static size_t journal_len;

/* Bytes that go to a place of the image or of the journal. */
struct write {
    int to_image;
    size_t at;
    const uint8_t *bytes;
    size_t size;
};

static struct write *writes;
static uint32_t write_count;

static void put32(uint8_t *at, size_t value)
{
    for (int i = 0; i < 4; i++)
        at[i] = (uint8_t)(value >> (24 - 8 * i));
}

static void add_write(int to_image, size_t at, const uint8_t *bytes,
                      size_t size)
{
    struct write w = { to_image, at, bytes, size };

    writes[write_count++] = w;
}

/* The runs of bytes that differ; their number. */
static uint32_t find_runs(size_t (*run)[2])
{
    uint32_t runs = 0;

    for (size_t i = 0; i < length; i++) {
        if (before[i] == after[i])
            continue;
        if (i == 0 || before[i - 1] == after[i - 1])
            run[runs++][0] = i;
        run[runs - 1][1] = i + 1;
    }
    return runs;
}

/* The content, and all writes in their order. */
static void derive_writes(void)
{
    static const uint8_t mark = MARK, none = 0;
    static size_t run[LONGEST][2];
    uint32_t runs = find_runs(run);
    uint8_t *bytes = content + 4 + PAIR * (size_t)runs;

    put32(content, runs);
    write_count = 2;
    for (uint32_t i = 0; i < runs; i++) {
        size_t at = run[i][0], size = run[i][1] - at;

        put32(content + 4 + PAIR * i, at);
        put32(content + 8 + PAIR * i, size);
        memcpy(bytes, after + at, size);
        add_write(1, at, after + at, size);
        bytes += size;
    }
    content_len = (size_t)(bytes - content);
    journal_len = content_len + 1 + below(40);
    add_write(0, journal_len - 1, &none, 1);
    writes[0] = (struct write){ 0, 0, content, content_len };
    writes[1] = (struct write){ 0, journal_len - 1, &mark, 1 };
    fill_random(lent, journal_len);
    lent[journal_len - 1] = 0;
}

/* ---- images and calls ---- */

static uint32_t make_call(uint8_t *image)
{
    if (call.kind == ADD)
        return subject.add(image, length, call.key, key_size, call.data,
                           call.data_len, call.mode);
    if (call.kind == DELETE)
        return subject.remove(image, length, call.key, key_size);
    return subject.compact(image, length);
}

static uint32_t make_journaled(uint8_t *image, uint8_t *work,
                               uint8_t *journal)
{
    if (call.kind == ADD)
        return subject.add_journaled(image, length, call.key, key_size,
                                     call.data, call.data_len, call.mode,
                                     work, length, journal, journal_len);
    if (call.kind == DELETE)
        return subject.remove_journaled(image, length, call.key, key_size,
                                        work, length, journal, journal_len);
    return subject.compact_journaled(image, length, work, length, journal,
                                     journal_len);
}

static void choose_call(void)
{
    uint32_t name = 1 + below(NAMES);
    uint32_t style = below(8);

    call.kind = style < 5 ? ADD : style < 7 ? DELETE : COMPACT;
    for (int i = 0; i < 3; i++)
        call.key[i] = (uint8_t)(name * (i + 1));
    call.data_len = below(below(4) == 0 ? TEXT + 1 : 8);
    fill_random(call.data, call.data_len);
    call.mode = 1 + below(4);
}

/* A file with a few points, mostly of 8,192 bytes. */
static void make_image(void)
{
    uint32_t slots = 1 + below(12);

    key_size = 1 + below(3);
    length = 2 * PAGE;
    if (below(16) == 0) {
        slots = 1 + below(5000);
        length = LONGEST;
    }
    fill_random(before, length);
    if (subject.create(before, length, key_size, slots, random32()) != 0)
        exit(2);
    if (below(3) == 0) { /* of version 2.0.0 */
        if (subject.convert(before, length, after, length) != 0)
            exit(2);
        memcpy(before, after, length);
    }
    for (uint32_t i = below(40); i > 0; i--) {
        choose_call();
        make_call(before);
    }
}

/* The next call that is accepted; now and then on another file. */
static void next_call(void)
{
    if (length == 0 || below(24) == 0)
        make_image();
    do {
        choose_call();
        memcpy(after, before, length);
    } while (make_call(after) != 0);
    derive_writes();
}

/* ---- what may be there after a cut ---- */

static uint8_t *image;    /* the writes before the cut are done */
static uint8_t *journal;
static uint8_t *trial;    /* and the one that it falls in */
static uint8_t *trial_journal;

static void do_write(const struct write *w, uint8_t *to_image,
                     uint8_t *to_journal)
{
    memcpy((w->to_image ? to_image : to_journal) + w->at, w->bytes, w->size);
}

enum { VARIANTS = 10 };

/* Some of the write's bytes, or others; a single byte may become any. */
static void do_partly(const struct write *w, uint32_t variant,
                      uint8_t *to_image, uint8_t *to_journal)
{
    static const uint8_t all[] = { 0, 0xFF, MARK };
    uint8_t *to = (w->to_image ? to_image : to_journal) + w->at;
    size_t part = below((uint32_t)w->size + 1);

    if (w->size == 1)
        *to = (uint8_t)variant;
    else if (variant == 0)
        ;
    else if (variant == 1)
        memcpy(to, w->bytes, w->size);
    else if (variant < 5)
        memset(to, all[variant - 2], w->size);
    else if (variant < 7)
        memcpy(to, w->bytes, part);
    else if (variant == 7)
        memcpy(to + part, w->bytes + part, w->size - part);
    else if (variant == 8)
        fill_random(to, w->size);
    else
        for (size_t i = 0; i < w->size; i++)
            to[i] = below(2) ? w->bytes[i] : to[i];
}

/* ---- recovery ---- */

static void complain(const char *what, uint32_t at, uint32_t variant)
{
    static const char *const kinds[] = { "add", "delete", "compaction" };

    printf("FAILED: %s: seed %llu, call %u, %s, cut at write %u of %u, "
           "variant %u\n", what, (unsigned long long)seed, passed + failed,
           kinds[call.kind], at, write_count, variant);
}

static int is_marked(const uint8_t *of)
{
    return of[journal_len - 1] == MARK;
}

/* Recovers; the mark becomes 0 and no other byte of the journal changes.
 * Answers what is wrong. */
static const char *recover(uint8_t *of_image, uint8_t *of_journal)
{
    static uint8_t kept[JOURNAL_MOST];

    memcpy(kept, of_journal, journal_len - 1);
    if (subject.recover(of_image, length, of_journal, journal_len) != 0)
        return "recovery is refused";
    if (of_journal[journal_len - 1] != 0)
        return "the mark is not 0";
    if (memcmp(kept, of_journal, journal_len - 1) != 0)
        return "recovery changed the journal";
    return NULL;
}

/* The image must be this one, and stay so. */
static const char *recover_to(const uint8_t *want, uint8_t *of_image,
                              uint8_t *of_journal)
{
    const char *wrong = recover(of_image, of_journal);

    if (wrong == NULL && memcmp(of_image, want, length) != 0)
        return want == before ? "the image is not the one before"
                              : "the image is not the one after";
    if (wrong == NULL)
        wrong = recover(of_image, of_journal);
    if (wrong == NULL && memcmp(of_image, want, length) != 0)
        return "a second recovery changes the image";
    return wrong;
}

/* Recovery of a cut call, cut too. Its writes are the stretches, if the journal
 * is marked, and the mark. A 0 that is written over the mark 0 is not cut: a
 * host has nothing to recover there. */
static const char *cut_recovery(uint32_t first)
{
    static uint8_t second[LONGEST], second_journal[JOURNAL_MOST];
    int marked = is_marked(trial_journal);
    uint32_t from = marked ? 2 : write_count - 1;
    uint32_t at = from + below(write_count - from);
    const struct write *w = &writes[at];

    if (trial_journal[journal_len - 1] == 0)
        return NULL;
    second_cuts++;
    memcpy(second, trial, length);
    memcpy(second_journal, trial_journal, journal_len);
    for (uint32_t i = from; i < at; i++)
        do_write(&writes[i], second, second_journal);
    do_partly(w, below(w->size == 1 ? 256 : VARIANTS), second,
              second_journal);
    if (first >= 2 || marked || is_marked(second_journal))
        return recover_to(after, second, second_journal);
    return recover_to(before, second, second_journal);
}

/* The first writes are done, and the next one in this way, or not at all. */
static int try_cut(uint32_t done, uint32_t variant)
{
    const char *wrong;
    int whole;

    cuts++;
    memcpy(trial, image, length);
    memcpy(trial_journal, journal, journal_len);
    if (done < write_count)
        do_partly(&writes[done], variant, trial, trial_journal);
    whole = done >= 2 || is_marked(trial_journal);
    wrong = cut_recovery(done);
    if (wrong == NULL)
        wrong = recover_to(whole ? after : before, trial, trial_journal);
    if (wrong != NULL)
        complain(wrong, done, variant);
    return wrong == NULL;
}

/* At each write, in each way. */
static int try_cuts(void)
{
    memcpy(image, before, length);
    memcpy(journal, lent, journal_len);
    for (uint32_t done = 0; done <= write_count; done++) {
        uint32_t ways = done == write_count ? 1
                        : writes[done].to_image || done == 0 ? VARIANTS : 256;

        for (uint32_t variant = 0; variant < ways; variant++)
            if (!try_cut(done, variant))
                return 0;
        if (done < write_count)
            do_write(&writes[done], image, journal);
    }
    return 1;
}

/* The call itself, not cut: the image after it, the content, the mark 0, and
 * what else was in the journal. */
static int try_uncut(void)
{
    static uint8_t work[LONGEST];
    const char *wrong = NULL;

    memcpy(image, before, length);
    memcpy(journal, lent, journal_len);
    memcpy(trial_journal, lent, journal_len);
    memcpy(trial_journal, content, content_len);
    if (make_journaled(image, work, journal) != 0)
        wrong = "the call is refused";
    else if (memcmp(image, after, length) != 0)
        wrong = "the call's image is another";
    else if (memcmp(journal, trial_journal, journal_len) != 0)
        wrong = "the call's journal is another";
    if (wrong != NULL)
        complain(wrong, write_count, 0);
    return wrong == NULL;
}

/* ---- the order of the call's own writes ---- */

/* The mark has the journal's last page to itself. Where the call stopped, and
 * what was not so there. */
static uint8_t *shared;
static uint8_t *shared_journal;
static volatile int stage;
static const char *volatile disorder;

static void protect(uint8_t *at, size_t size, int writable)
{
    if (mprotect(at, size, writable ? PROT_READ | PROT_WRITE : PROT_READ))
        _exit(2);
}

static void protect_all(int the_image, int the_content, int the_mark)
{
    protect(shared, length, the_image);
    protect(shared_journal, journal_len - PAGE, the_content);
    protect(shared_journal + journal_len - PAGE, PAGE, the_mark);
}

static int is_content_whole(void)
{
    return memcmp(shared_journal, content, content_len) == 0;
}

static void judge_mark(void)
{
    if (stage == 0 && !is_content_whole())
        disorder = "the mark is written before the content";
    if (stage == 0 && memcmp(shared, before, length) != 0)
        disorder = "the image is written before the mark";
    if (stage > 0 && memcmp(shared, after, length) != 0)
        disorder = "the mark is cleared before the image is written";
    stage++;
    protect_all(0, 0, 1);
}

static void judge_image(void)
{
    if (stage > 1)
        disorder = "the image is written after the mark is cleared";
    else if (!is_marked(shared_journal) || !is_content_whole())
        disorder = "the image is written before the mark";
    stage = 2;
    protect_all(1, 0, 0);
}

static int is_in(const uint8_t *at, const uint8_t *from, size_t size)
{
    return at >= from && at < from + size;
}

/* A write to a page that may not be written. */
static void on_write(int number, siginfo_t *info, void *context)
{
    const uint8_t *at = info->si_addr;

    (void)number;
    (void)context;
    if (is_in(at, shared, length))
        judge_image();
    else if (is_in(at, shared_journal + journal_len - PAGE, PAGE))
        judge_mark();
    else if (is_in(at, shared_journal, journal_len))
        disorder = "the content is written behind the mark";
    else
        _exit(3);
    if (disorder != NULL)
        protect_all(1, 1, 1);
}

/* From that stage to the last one; a call that changes no byte writes no
 * stretch, and then nothing stops it between the two marks. */
static void try_stages(int from, int is_recovery)
{
    static uint8_t work[LONGEST];
    uint32_t number;

    stage = from;
    protect_all(0, !is_recovery, 0);
    number = is_recovery ? subject.recover(shared, length, shared_journal,
                                           journal_len)
                         : make_journaled(shared, work, shared_journal);
    protect_all(1, 1, 1);
    if (number != 0)
        disorder = "the call is refused";
    else if (disorder == NULL && stage != 3 && write_count > 3)
        disorder = "a write is missing";
}

/* Where the mark is 0 already, recovery writes nothing: a write that a power
 * cut tears may leave any byte. */
static void try_unmarked(void)
{
    uint32_t number;

    stage = 0;
    shared_journal[journal_len - 1] = 0;
    protect_all(0, 0, 0);
    number = subject.recover(shared, length, shared_journal, journal_len);
    protect_all(1, 1, 1);
    if (number != 0)
        disorder = "recovery without a mark is refused";
    else if (stage != 0)
        disorder = "recovery writes where the mark is 0 already";
}

static int try_order(void)
{
    size_t old_len = journal_len;

    journal_len = (content_len + PAGE - 1) / PAGE * PAGE + PAGE;
    memcpy(shared, before, length);
    memset(shared_journal, 0, journal_len);
    disorder = NULL;
    try_stages(0, 0);
    memcpy(shared, before, length);
    shared_journal[journal_len - 1] = MARK;
    if (disorder == NULL && write_count > 3)
        try_stages(1, 1);
    if (disorder == NULL)
        try_unmarked();
    journal_len = old_len;
    if (disorder != NULL)
        complain(disorder, write_count, 0);
    return disorder == NULL;
}

/* ---- the run ---- */

static void *map(size_t size)
{
    void *at = mmap(NULL, size, PROT_READ | PROT_WRITE,
                    MAP_PRIVATE | MAP_ANONYMOUS, -1, 0);

    if (at == MAP_FAILED)
        exit(2);
    return at;
}

static void map_all(void)
{
    before = map(LONGEST);
    after = map(LONGEST);
    image = map(LONGEST);
    trial = map(LONGEST);
    shared = map(LONGEST);
    content = map(JOURNAL_MOST);
    lent = map(JOURNAL_MOST);
    journal = map(JOURNAL_MOST);
    trial_journal = map(JOURNAL_MOST);
    shared_journal = map(JOURNAL_MOST);
    writes = map((LONGEST + 3) * sizeof *writes);
}

static void watch_writes(void)
{
    struct sigaction action;

    memset(&action, 0, sizeof action);
    action.sa_sigaction = on_write;
    action.sa_flags = SA_SIGINFO;
    sigaction(SIGSEGV, &action, NULL);
    sigaction(SIGBUS, &action, NULL);
}

static void read_options(int argc, char **argv)
{
    seed = ((uint64_t)time(NULL) * 1000003u ^ (uint64_t)getpid()) & 0xFFFFFFFF;
    for (int i = 1; i + 1 < argc; i += 2) {
        if (strcmp(argv[i], "--seed") == 0)
            seed = strtoull(argv[i + 1], NULL, 0);
        else if (strcmp(argv[i], "--calls") == 0)
            calls = strtoull(argv[i + 1], NULL, 0);
        else
            exit(2);
    }
}

int main(int argc, char **argv)
{
    read_options(argc, argv);
    printf("seed %llu\n", (unsigned long long)seed);
    fflush(stdout);
    random_state = seed;
    map_all();
    watch_writes();
    while (passed + failed < calls && failed < 5) {
        next_call();
        if (try_uncut() && try_cuts() && try_order())
            passed++;
        else
            failed++;
        memcpy(before, after, length);
    }
    printf("%llu cuts, %llu of recovery\n", (unsigned long long)cuts,
           (unsigned long long)second_cuts);
    printf("%u passed, %u failed\n", passed, failed);
    return failed != 0;
}
