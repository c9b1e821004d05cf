/* One call on the library and on the plain reference: answers, bytes, and the
 * bytes around them. */
#include "parts.h"

#include "../reference/plain.h"

#include <stdio.h>
#include <stdlib.h>
#include <string.h>

#define UNSET 0xA5A5A5A5u

const struct calls plain = CALLS_OF(plain);

struct answer unset_answer(void)
{
    const struct answer a = { 0, UNSET, UNSET, UNSET, UNSET, UNSET,
                              UNSET, UNSET, UNSET, UNSET };

    return a;
}

/* A call by the form that reports the slots read. */
static void perform_counted(const struct calls *f, uint8_t *s,
                            const struct call *c, struct answer *a)
{
    size_t n = c->image_len;

    if (c->kind == ADD)
        a->number = f->add_slots(s, n, c->key, c->key_len, c->data,
                                 c->data_len, c->mode, &a->read);
    else if (c->kind == DELETE)
        a->number = f->remove_slots(s, n, c->key, c->key_len, &a->read);
    else
        a->number = f->lookup_slots(s, n, c->key, c->key_len, &a->first,
                                    &a->second, &a->read);
}

/* By the form that lists what changed. */
static void perform_listed(const struct calls *f, uint8_t *s,
                           const struct call *c, struct answer *a)
{
    int is_plain = f == &plain;
    uint8_t *w = is_plain ? work.plain : work.library;
    uint8_t *l = is_plain ? listing.plain : listing.library;
    size_t n = c->image_len;

    if (c->kind == ADD)
        a->number = f->add_listed(s, n, c->key, c->key_len, c->data,
                                  c->data_len, c->mode, w, c->work_len, l,
                                  c->list_len, &a->pairs);
    else if (c->kind == DELETE)
        a->number = f->remove_listed(s, n, c->key, c->key_len, w, c->work_len,
                                     l, c->list_len, &a->pairs);
    else
        a->number = f->compact_listed(s, n, w, c->work_len, l, c->list_len,
                                      &a->pairs);
}

/* By way of a journal. */
static void perform_journaled(const struct calls *f, uint8_t *s,
                              const struct call *c, struct answer *a)
{
    int is_plain = f == &plain;
    uint8_t *w = is_plain ? work.plain : work.library;
    uint8_t *j = is_plain ? journal.plain : journal.library;
    size_t n = c->image_len;

    if (c->kind == ADD)
        a->number = f->add_journaled(s, n, c->key, c->key_len, c->data,
                                     c->data_len, c->mode, w, c->work_len, j,
                                     c->journal_len);
    else if (c->kind == DELETE)
        a->number = f->remove_journaled(s, n, c->key, c->key_len, w,
                                        c->work_len, j, c->journal_len);
    else
        a->number = f->compact_journaled(s, n, w, c->work_len, j,
                                         c->journal_len);
}

static struct answer perform(const struct calls *f, uint8_t *image,
                             const struct call *c)
{
    struct answer a = unset_answer();
    uint8_t *s = slice_of(&lent, image, c->image_len);
    size_t n = c->image_len;

    if (c->form == COUNTED) {
        perform_counted(f, s, c, &a);
        return a;
    }
    if (c->form == LISTED) {
        perform_listed(f, s, c, &a);
        return a;
    }
    if (c->form == JOURNALED) {
        perform_journaled(f, s, c, &a);
        return a;
    }
    switch (c->kind) {
    case CREATE:
        a.number = f->create(s, n, c->key_size, c->slots, c->seed);
        break;
    case ADD:
        a.number = f->add(s, n, c->key, c->key_len, c->data, c->data_len,
                          c->mode);
        break;
    case DELETE:
        a.number = f->remove(s, n, c->key, c->key_len);
        break;
    case COMPACT:
        a.number = f->compact(s, n);
        break;
    case LOOKUP:
        a.number = f->lookup(s, n, c->key, c->key_len, &a.first, &a.second);
        break;
    case COUNT:
        a.number = f->count(s, n, &a.first);
        break;
    case WALK:
        a.number = f->walk(s, n, c->from, &a.first, &a.second);
        break;
    case STORE:
        a.number = f->store_columns(s, n, c->key, c->key_len, c->data,
                                    c->data_len, c->width);
        break;
    case READ:
        a.number = f->read_columns(s, n, c->key, c->key_len,
                                   f == &plain ? filled.plain
                                               : filled.library,
                                   c->list_len, &a.bytes);
        break;
    case SELECT:
        a.number = f->select(s, n, c->lowest, c->lowest_len, c->highest,
                             c->highest_len,
                             f == &plain ? filled.plain : filled.library,
                             c->list_len, &a.found);
        break;
    case AT_EPOCH:
        a.number = f->at_epoch(s, n, c->key, c->key_len, c->epoch, &a.shown,
                               &a.first, &a.second);
        break;
    case CONVERT:
        a.number = f->convert(s, n,
                              f == &plain ? target.plain : target.library,
                              c->target_len);
        break;
    case RECOVER:
        a.number = f->recover(s, n,
                              f == &plain ? journal.plain : journal.library,
                              c->journal_len);
        break;
    default:
        a.number = f->check(s, n, &a.first, &a.second);
        break;
    }
    return a;
}

struct answer perform_plain(uint8_t *image, const struct call *c)
{
    return perform(&plain, image, c);
}

struct answer perform_library(uint8_t *image, const struct call *c)
{
    return perform(&subject, image, c);
}

static void same(const char *what, uint32_t library, uint32_t reference)
{
    if (library != reference)
        fail_number(what, "library", library, "plain", reference);
}

/* Slots read: as plain C counts them; none where the call was refused before
 * its search, else from 1 to N, and in a sound file at most one more than the
 * points before the call. */
static void compare_read(const struct answer *a, const struct answer *b)
{
    int searched = a->number == 0 || a->number > 8;

    same("slots read", a->read, b->read);
    if (!searched && a->read != 0)
        fail("slots are read before the search");
    if (searched && (a->read < 1 || a->read > get32(lent.before + 16)))
        fail("slots read are not from 1 to N");
    if (searched && list.with_book && a->read > get32(lent.before + 20) + 1)
        fail("slots read in a sound file are more than C + 1");
}

static void compare_answers(const struct call *c, const struct answer *a,
                            const struct answer *b)
{
    same("answer", a->number, b->number);
    if (c->form == COUNTED)
        compare_read(a, b);
    if (c->form == LISTED)
        same("pairs", a->pairs, b->pairs);
    if (c->kind == AT_EPOCH)
        same("epoch shown", a->shown, b->shown);
    if (c->kind == LOOKUP || c->kind == AT_EPOCH) {
        same("message offset", a->first, b->first);
        same("message length", a->second, b->second);
    }
    if (c->kind == COUNT)
        same("count", a->first, b->first);
    if (c->kind == READ)
        same("bytes of records", a->bytes, b->bytes);
    if (c->kind == SELECT)
        same("slots in the ranges", a->found, b->found);
    if (c->kind == WALK) {
        same("key offset", a->second, b->second);
        if (run.strict || b->second != 0)
            same("slot", a->first, b->first);
    }
    if (c->kind == CHECK) {
        if (run.strict || b->number == 0)
            same("verdict", a->first, b->first);
        if (run.strict || (b->number == 0 && b->first == 1))
            same("failing slot", a->second, b->second);
    }
}

static void same_bytes(const char *what, const uint8_t *a, const char *one,
                       const uint8_t *b, const char *other)
{
    size_t i = 0;

    if (memcmp(a, b, lent.length) == 0)
        return;
    while (a[i] == b[i])
        i++;
    print_failure();
    printf("%s, byte %zu: %s %u, %s %u\n", what, i, one, a[i], other, b[i]);
    exit(1);
}

static int writes(enum kind kind)
{
    return kind <= COMPACT || kind == STORE || kind == RECOVER;
}

static void compare_bytes(const struct call *c, uint32_t number)
{
    same_bytes("image", lent.library, "library", lent.plain, "plain");
    if (!writes(c->kind) || number != 0)
        same_bytes("a refused or reading call changed the image",
                   lent.library, "after", lent.before, "before");
    if (!guards_hold(lent.library, lent.length, lent.shift))
        fail("bytes outside the image changed");
}

/* Damage may bring N above the old limit but not above the new one. */
static void keep_old_limits(void)
{
    if (lent.length >= PAGE && field(16) > OLD_SLOTS && field(16) <= SLOTS_MAX)
        poke32(16, OLD_SLOTS);
}

/* What 02 brought or gave another meaning: compaction, the calls behind the
 * check, mode 4, and empty data in modes 1 and 2. */
static void keep_old_calls(void)
{
    struct call *c = &list.now;

    if (c->kind == COMPACT || c->kind > CHECK)
        c->kind = CHECK;
    if (c->mode == 4 || (c->data_len == 0 && (c->mode == 1 || c->mode == 2)))
        c->mode = 3;
}

/* What the call is lent beside image, key and data. */
static void lend_slices(void)
{
    if (list.now.form == LISTED)
        lend_listed();
    if (list.now.form == JOURNALED)
        lend_journaled();
    if (list.now.kind == READ)
        lend_filled();
    if (list.now.kind == SELECT)
        lend_selected();
    if (list.now.kind == CONVERT)
        lend_target();
    if (list.now.kind == RECOVER && !list.now.again)
        lend_journal();
}

static void compare_slices(const struct call *c, const struct answer *a)
{
    if (c->form == LISTED)
        compare_listed(c, a);
    if (c->form == JOURNALED)
        compare_journaled(c, a);
    if (c->kind == STORE && a->number == 0)
        compare_stored(c);
    if (c->kind == READ)
        compare_filled(c, a);
    if (c->kind == READ)
        store_again(c, a);
    if (c->kind == SELECT)
        compare_selected(c, a);
    if (c->kind == AT_EPOCH)
        compare_epoch(c, a);
    if (c->kind == CONVERT)
        compare_converted(c, a);
    if (c->kind == RECOVER)
        compare_recovered(c, a);
}

struct answer run_call(void)
{
    const struct call *c = &list.now;
    struct answer a, b;
    uint8_t key[33];
    size_t kept = c->key_len < sizeof key ? c->key_len : sizeof key;

    run.calls++;
    if (run.old_limits)
        keep_old_limits();
    if (run.old_calls)
        keep_old_calls();
    if (c->key != NULL)
        memcpy(key, c->key, kept);
    lend_slices();
    a = perform(&subject, lent.library, c);
    if (c->key != NULL && memcmp(key, c->key, kept) != 0)
        fail("the lent key changed");
    b = perform(&plain, lent.plain, c);
    if (run.old_calls && c->kind == CREATE && a.number == 0)
        lent.library[7] = lent.plain[7];
    if (c->kind != CHECK || list.with_book || !run.old_check)
        compare_answers(c, &a, &b);
    compare_bytes(c, a.number);
    if (list.with_book)
        compare_book(c, &a);
    if (c->kind == COMPACT && a.number == 0)
        compare_packed();
    if (writes(c->kind) && a.number == 0 && c->image_len <= lent.length)
        compare_runs(c->image_len);
    compare_slices(c, &a);
    if (writes(c->kind) && a.number == 0)
        memcpy(lent.before, lent.library, lent.length);
    if (c->kind == CONVERT && a.number == 0)
        go_on_in_target();
    seen[c->kind][a.number < NUMBERS ? a.number : 0]++;
    return a;
}

/* Three of four by the form with slots read where there is one; now and then
 * with a list or a journal, which takes as long as the image is. */
static enum form choose_form(enum kind kind)
{
    int changes = kind == ADD || kind == DELETE || kind == COMPACT;
    uint32_t rate = lent.length > 1000000 ? 80 : kind == COMPACT ? 3 : 5;

    if (run.old_calls)
        return PLAIN;
    if (changes && one_in(rate))
        return one_in(2) ? LISTED : JOURNALED;
    if ((kind == ADD || kind == DELETE || kind == LOOKUP) && !one_in(4))
        return COUNTED;
    return PLAIN;
}

void new_call(enum kind kind)
{
    memset(&list.now, 0, sizeof list.now);
    list.now.kind = kind;
    list.now.image_len = lent.length;
    list.now.form = choose_form(kind);
}
