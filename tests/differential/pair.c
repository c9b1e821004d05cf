/* One call on a pair of images, as they are in growth, on the library and on the
 * plain reference: answers, the bytes of both images, and those around them;
 * and, where both are sound, what the calls on one image make of it. */
#include "parts.h"

#include <stdio.h>
#include <stdlib.h>
#include <string.h>

#define MOVES 8u
#define MOST_LENGTH 1000000u /* of longer images plain C alone is compared */

static struct answer perform(const struct calls *f, const struct call *c)
{
    int is_plain = f == &plain;
    uint8_t *old = slice_of(&older, is_plain ? older.plain : older.library,
                            c->old_len);
    uint8_t *new = slice_of(&lent, is_plain ? lent.plain : lent.library,
                            c->image_len);
    uint8_t *out = is_plain ? filled.plain : filled.library;
    size_t o = c->old_len, n = c->image_len;
    struct answer a = unset_answer();

    switch (c->kind) {
    case START:
        a.number = f->grow(old, o, new, n);
        break;
    case ADD:
        a.number = f->grow_add(old, o, new, n, c->key, c->key_len, c->data,
                               c->data_len, c->mode);
        break;
    case DELETE:
        a.number = f->grow_remove(old, o, new, n, c->key, c->key_len);
        break;
    case STORE:
        a.number = f->grow_store_columns(old, o, new, n, c->key, c->key_len,
                                         c->data, c->data_len, c->width);
        break;
    case LOOKUP:
        a.number = f->grow_lookup(old, o, new, n, c->key, c->key_len,
                                  &a.in_new, &a.first, &a.second);
        break;
    case COUNT:
        a.number = f->grow_count(old, o, new, n, &a.first);
        break;
    case READ:
        a.number = f->grow_read_columns(old, o, new, n, c->key, c->key_len,
                                        out, c->list_len, &a.bytes);
        break;
    case SELECT:
        a.number = f->grow_select(old, o, new, n, c->lowest, c->lowest_len,
                                  c->highest, c->highest_len, out,
                                  c->list_len, &a.found, &a.more);
        break;
    default:
        a.number = f->grow_at_epoch(old, o, new, n, c->key, c->key_len,
                                    c->epoch, &a.shown, &a.in_new, &a.first,
                                    &a.second);
        break;
    }
    return a;
}

static int writes(enum kind kind)
{
    return kind == ADD || kind == DELETE || kind == STORE;
}

/* ---- plain C ---- */

static void same(const char *what, uint32_t library, uint32_t reference)
{
    if (library != reference)
        fail_number(what, "library", library, "plain", reference);
}

/* What no call of this kind sets is the same on both sides. */
static void compare_answers(const struct answer *a, const struct answer *b)
{
    same("answer", a->number, b->number);
    same("in the new image", a->in_new, b->in_new);
    same("message offset, or count", a->first, b->first);
    same("message length", a->second, b->second);
    same("bytes of records", a->bytes, b->bytes);
    same("old slots in the ranges", a->found, b->found);
    same("new slots in the ranges", a->more, b->more);
    same("epoch shown", a->shown, b->shown);
}

static void same_bytes(const char *what, const struct lent *l,
                       const uint8_t *other, const char *whose)
{
    size_t i = 0;

    if (memcmp(l->library, other, l->length) == 0)
        return;
    while (l->library[i] == other[i])
        i++;
    print_failure();
    printf("%s, byte %zu: library %u, %s %u\n", what, i, l->library[i], whose,
           other[i]);
    exit(1);
}

static void compare_image(const char *what, const struct lent *l, int changes)
{
    same_bytes(what, l, l->plain, "plain");
    if (!changes)
        same_bytes(what, l, l->before, "before a refused or reading call");
    if (!guards_hold(l->library, l->length, l->shift))
        fail("bytes outside an image of the pair changed");
}

static void compare_slices(const struct call *c, const struct answer *a)
{
    if (c->kind == SELECT)
        compare_selected_of_both(c, a);
    if (c->kind != READ)
        return;
    if (a->number != 0 && a->bytes != 0)
        fail("a refused reading answers bytes");
    if (memcmp(filled.library, filled.plain, a->bytes) != 0)
        fail("the records are not plain C's");
    compare_slice("the slice", &filled, a->bytes);
}

/* ---- by the calls on one image ---- */

/* Of the copies in scratch: added there, deleted here. */
static void move_by_calls(const uint8_t *key)
{
    uint32_t k = list.key_size, offset, length;

    if (plain.lookup(older.scratch, older.length, key, k, &offset,
                     &length) != 0 ||
        plain.add(lent.scratch, lent.length, key, k, older.scratch + offset,
                  length, offset != 0 ? 1 : 3) != 0 ||
        plain.remove(older.scratch, older.length, key, k) != 0)
        fail("a move is refused in a list");
}

static uint32_t act_by_calls(const struct call *c)
{
    if (c->kind == ADD)
        return plain.add(lent.scratch, lent.length, c->key, c->key_len,
                         c->data, c->data_len, c->mode);
    if (c->kind == DELETE)
        return plain.remove(lent.scratch, lent.length, c->key, c->key_len);
    return plain.store_columns(lent.scratch, lent.length, c->key, c->key_len,
                               c->data, c->data_len, c->width);
}

/* The lowest taken slot's key; whether there is one. */
static int lowest_key(uint8_t *key)
{
    uint32_t slot, at;

    plain.walk(older.scratch, older.length, 0, &slot, &at);
    memcpy(key, older.scratch + at, list.key_size);
    return at != 0;
}

/* An accepted call: the named point moves, then the call acts on the new image,
 * then up to eight points move. */
static void compare_by_calls(const struct call *c)
{
    uint32_t offset, length;
    uint8_t key[32];

    memcpy(older.scratch, older.before, older.length);
    memcpy(lent.scratch, lent.before, lent.length);
    if (plain.lookup(older.scratch, older.length, c->key, c->key_len, &offset,
                     &length) == 0)
        move_by_calls(c->key);
    if (act_by_calls(c) != 0)
        fail("the call is accepted, and refused by the new image alone");
    for (uint32_t i = 0; i < MOVES && lowest_key(key); i++)
        move_by_calls(key);
    same_bytes("old image", &older, older.scratch, "by the calls on one image");
    same_bytes("new image", &lent, lent.scratch, "by the calls on one image");
}

/* Both images stay sound, and no name is in both. */
static void compare_pair(void)
{
    uint32_t verdict, slot, offset, length;

    if (subject.check(older.library, older.length, &verdict, &slot) != 0 ||
        verdict != 0)
        fail("the old image is not sound");
    if (subject.check(lent.library, lent.length, &verdict, &slot) != 0 ||
        verdict != 0)
        fail("the new image is not sound");
    for (uint32_t i = 0; i < list.names; i++)
        if (plain.lookup(older.plain, older.length, list.name[i],
                         list.key_size, &offset, &length) == 0 &&
            plain.lookup(lent.plain, lent.length, list.name[i],
                         list.key_size, &offset, &length) == 0)
            fail("a name is in both images");
}

/* ---- the book ---- */

static void compare_message(const struct call *c, const struct answer *a)
{
    const struct entry *e;
    uint32_t shown = a->shown;
    uint32_t number =
        c->kind == LOOKUP
            ? book_lookup(&list.book, c->key, c->key_len, &e)
            : book_at_epoch(&list.book, c->key, c->key_len, c->epoch, &shown,
                            &e);

    same_as_book("answer", a->number, number);
    same_as_book("epoch shown", a->shown, shown);
    if (a->in_new > 1 || (a->in_new == 1 && a->first == 0))
        fail("a message is said to be in the new image that is not shown");
    compare_text(a->in_new ? lent.library : older.library, a, e);
}

static void compare_records(const struct call *c, const struct answer *a)
{
    const uint8_t *records;
    uint32_t bytes;

    same_as_book("answer", a->number,
                 book_read_columns(&list.book, c->key, c->key_len,
                                   c->list_len, &records, &bytes));
    same_as_book("bytes of records", a->bytes, bytes);
    if (bytes > 0 && memcmp(filled.library, records, bytes) != 0)
        fail("the records are not the book's");
}

static void compare_select(const struct call *c, const struct answer *a)
{
    uint32_t slots = get32(older.before + 16) + get32(lent.before + 16);
    uint32_t found;

    same_as_book("answer", a->number,
                 book_select(&list.book, c->lowest, c->lowest_len, c->highest,
                             c->highest_len, slots, c->list_len, &found));
    same_as_book("points in the ranges", a->found + a->more, found);
}

/* The book's number of a call that changes it. */
static uint32_t book_change(const struct call *c)
{
    struct book *b = &list.book;

    if (c->kind == ADD)
        return book_add(b, c->key, c->key_len, c->data, c->data_len, c->mode);
    if (c->kind == DELETE)
        return book_delete(b, c->key, c->key_len);
    return book_store_columns(b, c->key, c->key_len, c->data, c->data_len,
                              c->width);
}

static void compare_with_book(const struct call *c, const struct answer *a)
{
    if (c->old_len != older.length) {
        same_as_book("answer", a->number, 1);
        return;
    }
    if (c->image_len != lent.length) {
        same_as_book("answer", a->number, 21);
        return;
    }
    if (writes(c->kind))
        same_as_book("answer", a->number, book_change(c));
    if (c->kind == LOOKUP || c->kind == AT_EPOCH)
        compare_message(c, a);
    if (c->kind == COUNT)
        same_as_book("count", a->first, book_count(&list.book));
    if (c->kind == READ)
        compare_records(c, a);
    if (c->kind == SELECT)
        compare_select(c, a);
    if (a->number == 0 && writes(c->kind) && lent.length <= MOST_LENGTH &&
        older.length <= MOST_LENGTH) {
        compare_by_calls(c);
        compare_pair();
    }
}

/* ---- the call ---- */

/* Around what the records need, none, or more than enough. */
void lend_records(void)
{
    uint32_t in_new, offset, stored = 0, needed, style = below(16);
    size_t length;

    if (list.now.old_len == older.length && list.now.image_len == lent.length)
        plain.grow_lookup(older.before, older.length, lent.before,
                          lent.length, list.now.key, list.now.key_len,
                          &in_new, &offset, &stored);
    needed = stored == 0 ? 0 : stored - 1;
    length = needed;
    if (style == 0)
        length = below(needed + 1);
    else if (style < 4 && needed > 0)
        length = needed - 1;
    else if (style < 8)
        length = needed + below(40);
    list.now.list_len = length;
    lend_slice(&filled, length);
    fill_slice(&filled);
}

void new_pair_call(enum kind kind)
{
    memset(&list.now, 0, sizeof list.now);
    list.now.kind = kind;
    list.now.paired = 1;
    list.now.image_len = lent.length;
    list.now.old_len = older.length;
}

struct answer run_pair_call(void)
{
    const struct call *c = &list.now;
    struct answer a, b;
    uint8_t key[33];
    size_t kept = c->key_len < sizeof key ? c->key_len : sizeof key;
    int changes;

    run.calls++;
    if (c->key != NULL)
        memcpy(key, c->key, kept);
    if (c->kind == READ)
        lend_records();
    if (c->kind == SELECT)
        lend_selected();
    a = perform(&subject, c);
    if (c->key != NULL && memcmp(key, c->key, kept) != 0)
        fail("the lent key changed");
    b = perform(&plain, c);
    changes = writes(c->kind) && a.number == 0;
    compare_answers(&a, &b);
    compare_image("old image", &older, changes);
    compare_image("new image", &lent, changes);
    compare_slices(c, &a);
    if (list.with_book)
        compare_with_book(c, &a);
    if (changes) {
        memcpy(older.before, older.library, older.length);
        memcpy(lent.before, lent.library, lent.length);
    }
    seen_on_pair[c->kind][a.number < NUMBERS ? a.number : 0]++;
    return a;
}
