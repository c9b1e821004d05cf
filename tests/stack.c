/* How much stack the check, the compaction, this also in the forms with a list
 * and by way of a journal, and the conversion take: each runs on a thread whose stack is little
 * larger than the header (host/include/bhtf.h) says, with an unreadable page at
 * its end, and the bytes that it wrote there are counted.
 * And what a call costs that question 16 refuses: it reads no byte of the image,
 * which lies in pages that may not be read.
 * Ends with "N passed, 0 failed". */
#define _DEFAULT_SOURCE

#include "calls.h"

#include <pthread.h>
#include <setjmp.h>
#include <signal.h>
#include <stdio.h>
#include <string.h>
#include <sys/mman.h>

/* What the header says, and what the thread itself may take besides. */
enum { CHECK_SAID = 307200, COMPACT_SAID = 1376256, BESIDES = 20480 };
enum { PAGE = 4096, PAINT = 0xA7, KEY = 4, TEXT = 200, JOURNAL = 5 };

struct asked {
    uint8_t *image;
    uint8_t *work;    /* as long as the image */
    uint8_t *journal; /* as long as it can have to be */
    size_t length;
    uint32_t number;
    uint32_t verdict;
    uint32_t slot;
};

static unsigned passed;
static unsigned failed;

static void expect(const char *what, unsigned long got, unsigned long want)
{
    if (got == want) {
        passed++;
        return;
    }
    failed++;
    printf("FAILED: %s: got %lu, expected %lu\n", what, got, want);
}

static void *map(size_t size)
{
    void *at = mmap(NULL, size, PROT_READ | PROT_WRITE,
                    MAP_PRIVATE | MAP_ANONYMOUS, -1, 0);

    return at == MAP_FAILED ? NULL : at;
}

static void *run_check(void *given)
{
    struct asked *a = given;

    a->number = subject.check(a->image, a->length, &a->verdict, &a->slot);
    return NULL;
}

static void *run_compact(void *given)
{
    struct asked *a = given;

    a->number = subject.compact(a->image, a->length);
    return NULL;
}

static void *run_compact_listed(void *given)
{
    struct asked *a = given;
    uint8_t list[8];
    uint32_t pairs;

    a->number = subject.compact_listed(a->image, a->length, a->work,
                                       a->length, list, sizeof list, &pairs);
    return NULL;
}

static void *run_compact_journaled(void *given)
{
    struct asked *a = given;

    a->number = subject.compact_journaled(a->image, a->length, a->work,
                                          a->length, a->journal,
                                          JOURNAL * a->length);
    return NULL;
}

static void *run_convert(void *given)
{
    struct asked *a = given;

    a->number = subject.convert(a->image, a->length, a->work, a->length);
    return NULL;
}

static void *run_nothing(void *given)
{
    return given;
}

/* Runs it on such a stack; answers how many bytes were written to, or 0. */
static size_t stack_of(void *(*run)(void *), size_t said, struct asked *a)
{
    size_t size = said + BESIDES;
    uint8_t *wall = map(PAGE + size);
    uint8_t *stack = wall + PAGE;
    pthread_attr_t with;
    pthread_t thread;
    size_t free_bytes = 0;

    if (wall == NULL || mprotect(wall, PAGE, PROT_NONE) != 0)
        return 0;
    memset(stack, PAINT, size);
    if (pthread_attr_init(&with) != 0 ||
        pthread_attr_setstack(&with, stack, size) != 0 ||
        pthread_create(&thread, &with, run, a) != 0)
        return 0;
    pthread_join(thread, NULL);
    pthread_attr_destroy(&with);
    while (free_bytes < size && stack[free_bytes] == PAINT)
        free_bytes++;
    munmap(wall, PAGE + size);
    return size - free_bytes;
}

/* So many slots half full, in an image of that length; every third message is
 * withdrawn. */
static void fill(uint8_t *image, size_t length, uint32_t slots)
{
    uint8_t text[TEXT];
    uint8_t key[KEY] = { 0 };

    memset(text, 't', sizeof text);
    expect("create", subject.create(image, length, KEY, slots, 0), 0);
    for (uint32_t i = 1; i <= slots / 2; i++) {
        key[1] = (uint8_t)(i >> 16);
        key[2] = (uint8_t)(i >> 8);
        key[3] = (uint8_t)i;
        subject.add(image, length, key, KEY, text, sizeof text, 1);
        if (i % 3 == 0)
            subject.add(image, length, key, KEY, NULL, 0, 4);
    }
}

/* On a file that has messages to move. */
static size_t packing_stack(void *(*run)(void *), uint32_t slots,
                            struct asked *a)
{
    size_t taken;

    fill(a->image, a->length, slots);
    taken = stack_of(run, COMPACT_SAID, a);
    expect("answer", a->number, 0);
    return taken;
}

static void try(const char *what, size_t length, uint32_t slots)
{
    struct asked a = { map(length), map(length), map(JOURNAL * length),
                       length, 77, 77, 77 };
    size_t thread, taken, packing, listing, journaling, converting, most;

    if (a.image == NULL || a.work == NULL || a.journal == NULL) {
        failed++;
        return;
    }
    fill(a.image, length, slots);
    thread = stack_of(run_nothing, CHECK_SAID, &a);
    taken = stack_of(run_check, CHECK_SAID, &a);
    expect("answer", a.number, 0);
    expect("verdict", a.verdict, 0);
    packing = packing_stack(run_compact, slots, &a);
    listing = packing_stack(run_compact_listed, slots, &a);
    journaling = packing_stack(run_compact_journaled, slots, &a);
    converting = packing_stack(run_convert, slots, &a);
    expect("the threads ran", thread > 0 && taken > 0 && packing > 0 &&
                                  listing > 0 && journaling > 0 &&
                                  converting > 0, 1);
    expect("the check takes what the header says",
           taken <= CHECK_SAID + thread, 1);
    most = packing > listing ? packing : listing;
    most = most > journaling ? most : journaling;
    expect("compaction takes what the header says",
           most <= COMPACT_SAID + thread, 1);
    expect("conversion takes what the header says",
           converting <= COMPACT_SAID + thread, 1);
    printf("%s: check %zu bytes of stack, compaction %zu, with a list %zu, "
           "with a journal %zu, conversion %zu; %zu of them the thread's own\n",
           what, taken, packing, listing, journaling, converting, thread);
    munmap(a.image, length);
    munmap(a.work, length);
    munmap(a.journal, JOURNAL * length);
}

/* ---- calls that question 16 refuses ---- */

static sigjmp_buf at_read;

static void on_read(int number)
{
    siglongjmp(at_read, number);
}

/* The three calls that list what they changed, on an image that may not be
 * read, with a list and a working slice of these lengths. What stood for
 * SIGSEGV stands again behind it. */
static void expect_unread(const char *what, uint8_t *image, size_t length,
                          size_t work_len, size_t list_len)
{
    static uint8_t work[2 * PAGE], list[16];
    const uint8_t key[KEY] = { 1 };
    static uint32_t pairs[3];
    static const char *const calls[] = { "  add", "  delete", "  compaction" };
    volatile uint32_t answers[3] = { 77, 77, 77 };
    struct sigaction stop = { 0 }, stood;

    pairs[0] = pairs[1] = pairs[2] = 77;
    stop.sa_handler = on_read;
    sigemptyset(&stop.sa_mask);
    sigaction(SIGSEGV, &stop, &stood);
    if (sigsetjmp(at_read, 1) == 0) {
        answers[0] = subject.add_listed(image, length, key, KEY, key, KEY, 1,
                                        work, work_len, list, list_len, pairs);
        answers[1] = subject.remove_listed(image, length, key, KEY, work,
                                           work_len, list, list_len, pairs + 1);
        answers[2] = subject.compact_listed(image, length, work, work_len, list,
                                            list_len, pairs + 2);
    }
    sigaction(SIGSEGV, &stood, NULL);
    printf("an image that may not be read, %s\n", what);
    for (int i = 0; i < 3; i++) {
        expect(calls[i], answers[i], 16);
        expect("  its pairs", pairs[i], 0);
    }
}

static void try_unread(void)
{
    const size_t length = 2 * PAGE;
    uint8_t *image = map(length);

    if (image == NULL || mprotect(image, length, PROT_NONE) != 0) {
        failed++;
        return;
    }
    expect_unread("a list of 7", image, length, length, 7);
    expect_unread("a working slice of L - 1", image, length, length - 1, 16);
    munmap(image, length);
}

int main(void)
{
    try("100 slots", 20480, 100);
    try("5507 slots", 1048576, 5507);
    try("65536 slots", 16777216, 65536);
    try_unread();
    printf("%u passed, %u failed\n", passed, failed);
    return failed != 0;
}
