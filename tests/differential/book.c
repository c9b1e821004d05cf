/* The library's answers against the control book's. */
#include "parts.h"

#include <string.h>

void same_as_book(const char *what, uint32_t library, uint32_t book)
{
    if (library != book)
        fail_number(what, "library", library, "book", book);
}

void compare_text(const uint8_t *image, const struct answer *a,
                  const struct entry *e)
{
    same_as_book("has a text", a->first != 0, e != NULL && e->noted);
    same_as_book("text length", a->second, e == NULL ? 0 : e->length);
    if (a->second > 0 && memcmp(image + a->first, e->text, e->length))
        fail("the message is not the book's text");
}

static void compare_lookup(const struct call *c, const struct answer *a)
{
    const struct entry *e;
    uint32_t number = book_lookup(&list.book, c->key, c->key_len, &e);

    same_as_book("answer", a->number, number);
    compare_text(lent.library, a, e);
}

/* The book's own choice. */
static void compare_choice(const struct call *c, const struct answer *a)
{
    const struct entry *e;
    uint32_t shown;
    uint32_t number = book_at_epoch(&list.book, c->key, c->key_len, c->epoch,
                                    &shown, &e);

    same_as_book("answer", a->number, number);
    same_as_book("epoch shown", a->shown, shown);
    compare_text(lent.library, a, e);
}

/* A walk shows points of the book only. */
static void compare_walk(const struct answer *a)
{
    const struct entry *e;

    same_as_book("answer", a->number, 0);
    if (a->second != 0 &&
        book_lookup(&list.book, lent.library + a->second, list.key_size,
                    &e) != 0)
        fail("the walk shows a key that is not in the book");
}

/* The book's records, by its text and the lent slice's length. */
static void compare_read(const struct call *c, const struct answer *a)
{
    const uint8_t *records;
    uint32_t bytes;
    uint32_t number = book_read_columns(&list.book, c->key, c->key_len,
                                        c->list_len, &records, &bytes);

    same_as_book("answer", a->number, number);
    same_as_book("bytes of records", a->bytes, bytes);
    if (bytes > 0 && memcmp(filled.library, records, bytes) != 0)
        fail("the records are not the book's");
}

/* As many as the book has in the ranges, and each of them a point of it. */
static void compare_select(const struct call *c, const struct answer *a)
{
    const struct entry *e;
    uint32_t found;
    uint32_t number = book_select(&list.book, c->lowest, c->lowest_len,
                                  c->highest, c->highest_len, list.slots,
                                  c->list_len, &found);

    same_as_book("answer", a->number, number);
    same_as_book("points in the ranges", a->found, found);
    for (uint32_t i = 0; i < a->found; i++) {
        size_t slot = get32(filled.library + 4 * (size_t)i);

        if (slot >= list.slots ||
            book_lookup(&list.book,
                        lent.library + 2048 + slot * (list.key_size + 4),
                        list.key_size, &e) != 0)
            fail("a listed slot's name is not in the book");
    }
}

static int asks_16(const struct call *c)
{
    if (c->form == LISTED)
        return book_ask_listed(c->image_len, c->work_len, c->list_len) != 0;
    return c->form == JOURNALED &&
           book_ask_journaled(c->image_len, c->work_len) != 0;
}

/* Recovery is no call on the book; a 17, which hangs on the bytes that would
 * change, it is told from the file. */
void compare_book(const struct call *c, const struct answer *a)
{
    struct book *b = &list.book;

    if (asks_16(c)) {
        same_as_book("answer", a->number, 16);
        return;
    }
    if (c->kind == RECOVER || (c->form == JOURNALED && a->number == 17))
        return;
    if (c->image_len != lent.length) {
        same_as_book("answer", a->number, 1);
        return;
    }
    switch (c->kind) {
    case ADD:
        same_as_book("answer", a->number,
                     book_add(b, c->key, c->key_len, c->data, c->data_len,
                              c->mode));
        break;
    case DELETE:
        same_as_book("answer", a->number,
                     book_delete(b, c->key, c->key_len));
        break;
    case COMPACT:
        same_as_book("answer", a->number, 0);
        book_compact(b);
        break;
    case CONVERT:
        same_as_book("answer", a->number, book_convert(b, c->target_len));
        break;
    case STORE:
        same_as_book("answer", a->number,
                     book_store_columns(b, c->key, c->key_len, c->data,
                                        c->data_len, c->width));
        break;
    case READ:
        compare_read(c, a);
        break;
    case SELECT:
        compare_select(c, a);
        break;
    case AT_EPOCH:
        compare_choice(c, a);
        break;
    case LOOKUP:
        compare_lookup(c, a);
        break;
    case COUNT:
        same_as_book("answer", a->number, 0);
        same_as_book("count", a->first, book_count(b));
        break;
    case WALK:
        compare_walk(a);
        break;
    case CHECK:
        same_as_book("answer", a->number, 0);
        same_as_book("verdict", a->first, 0);
        break;
    default:
        break;
    }
}
