/* What differs is said with the seed, the call and the image before it. */
#define _DEFAULT_SOURCE

#include "parts.h"

#include <signal.h>
#include <stdio.h>
#include <stdlib.h>
#include <unistd.h>

const char *const kind_name[KINDS] = {
    "create", "add", "delete", "compact", "lookup", "count", "walk", "check",
    "store", "read", "select", "epoch", "convert",
    "recover", "start",
};

static void print_bytes(const char *what, const uint8_t *bytes, size_t length)
{
    printf(", %s of %zu bytes", what, length);
    for (size_t i = 0; i < length && i < 33; i++)
        printf("%s%02x", i == 0 ? " " : "", bytes[i]);
}

static void print_ranges(const struct call *c)
{
    print_bytes("lowest", c->lowest, c->lowest_len);
    print_bytes("highest", c->highest, c->highest_len);
    printf(", list of %zu bytes", c->list_len);
}

static void print_call(const struct call *c)
{
    printf("%s: image of %zu bytes", kind_name[c->kind], c->image_len);
    if (c->paired)
        printf(", the old one of %zu", c->old_len);
    if (c->kind == CREATE)
        printf(", K %u, N %u, seed %u", c->key_size, c->slots, c->seed);
    if (c->kind == ADD || c->kind == DELETE || c->kind == LOOKUP ||
        c->kind == STORE || c->kind == READ || c->kind == AT_EPOCH)
        print_bytes("key", c->key, c->key_len);
    if (c->kind == STORE)
        printf(", records of %zu bytes, width %u", c->data_len, c->width);
    if (c->kind == READ)
        printf(", slice of %zu bytes", c->list_len);
    if (c->kind == SELECT)
        print_ranges(c);
    if (c->kind == AT_EPOCH)
        printf(", epoch %u", c->epoch);
    if (c->kind == ADD)
        printf(", data of %zu bytes, mode %u", c->data_len, c->mode);
    if (c->kind == WALK)
        printf(", from slot %u", c->from);
    if (c->kind == CONVERT)
        printf(", target of %zu bytes", c->target_len);
    if (c->form == COUNTED)
        printf(", with slots read");
    if (c->form == LISTED)
        printf(", working slice of %zu bytes, list of %zu", c->work_len,
               c->list_len);
    if (c->form == JOURNALED)
        printf(", working slice of %zu bytes", c->work_len);
    if (c->form == JOURNALED || c->kind == RECOVER)
        printf(", journal of %zu bytes, mark %u", c->journal_len, c->mark);
    printf("\n");
}

static void print_before(const char *what, const struct lent *l)
{
    const uint8_t *b = l->before;

    if (l->length < 60)
        return;
    printf("%s before: version %u.%u.%u, K %u, N %u, C %u, F %u, E %u, "
           "D %u, X %u\n", what, b[5], b[6], b[7],
           get32(b + 12), get32(b + 16), get32(b + 20), get32(b + 32),
           get32(b + 36), get32(b + 48), get32(b + 52));
}

void print_failure(void)
{
    printf("DIFFERENCE: seed %llu, call %llu, list %llu (%s)\n",
           (unsigned long long)run.seed, (unsigned long long)run.calls,
           (unsigned long long)list.number, list.what);
    print_call(&list.now);
    print_before("image", &lent);
    if (list.now.paired)
        print_before("old image", &older);
}

void fail_number(const char *what, const char *one, uint64_t a,
                        const char *other, uint64_t b)
{
    print_failure();
    printf("%s: %s %llu, %s %llu\n", what, one, (unsigned long long)a, other,
           (unsigned long long)b);
    exit(1);
}

void fail(const char *what)
{
    print_failure();
    printf("%s\n", what);
    exit(1);
}

void fail_slice(const char *what, const char *differs)
{
    print_failure();
    printf("%s %s\n", what, differs);
    exit(1);
}

static void on_signal(int number)
{
    print_failure();
    printf(number == SIGALRM ? "the call does not end\n"
                             : "the call crashed, signal %d\n",
           number);
    fflush(stdout);
    _exit(1);
}

void watch_signals(void)
{
    static const int signals[] = { SIGSEGV, SIGBUS, SIGFPE,
                                   SIGILL,  SIGABRT, SIGALRM };

    for (size_t i = 0; i < sizeof signals / sizeof *signals; i++)
        signal(signals[i], on_signal);
}
