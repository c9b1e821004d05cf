/* The plain control book of 01-scope.md and 02-change-requests.md: what the
 * file should amount to, seen from the calls alone. */
#ifndef BOOK_H
#define BOOK_H

#include <stddef.h>
#include <stdint.h>

struct entry {
    uint8_t name[32];
    int noted;       /* the text is a list, maybe of no bytes; else none */
    uint8_t *text;   /* its bytes, as many as length */
    uint32_t length; /* 0 for none */
    uint32_t held;
    int placed;      /* it has an offset */
};

struct book {
    uint32_t key_size;
    uint32_t slots;
    uint32_t header;  /* bytes of a message's header: 4, or 5 in 2.0 */
    uint32_t longest; /* text */
    uint64_t used; /* U */
    uint64_t room; /* R */
    struct entry *entries;
    uint32_t count;
    uint32_t capacity;
    uint8_t *scratch; /* columns or records of the last call */
};

/* An empty book for an image of the given length; slots 0 means 5507. */
void book_open(struct book *b, size_t image_len, uint32_t key_size,
               uint32_t slots);

/* The book that a sound image gives (02, Job 3): entries from taken slots,
 * text from active messages, held from the length at the offset, whether there
 * is one, U = X - D. */
void book_read(struct book *b, const uint8_t *image, size_t image_len);
void book_close(struct book *b);

uint32_t book_add(struct book *b, const uint8_t *key, size_t key_len,
                  const uint8_t *data, size_t data_len, uint32_t mode);
uint32_t book_delete(struct book *b, const uint8_t *key, size_t key_len);

/* The entry stays the book's, for its text; NULL when refused. */
uint32_t book_lookup(const struct book *b, const uint8_t *key,
                     size_t key_len, const struct entry **entry);
uint32_t book_count(const struct book *b);

/* Readings by column: what mode 2 does with the stored bytes, and 19. */
uint32_t book_store_columns(struct book *b, const uint8_t *key, size_t key_len,
                            const uint8_t *records, size_t records_len,
                            uint32_t width);

/* The records, by the entry's text: they are the book's until its next call;
 * none when refused. 19 also if they do not fit room bytes. */
uint32_t book_read_columns(struct book *b, const uint8_t *key, size_t key_len,
                           size_t room, const uint8_t **records,
                           uint32_t *bytes);

/* How many names lie in the ranges, 0 when refused; 22 and 16 as the file, the
 * list for so many slots: N, or both N during growth. */
uint32_t book_select(const struct book *b, const uint8_t *lowest,
                     size_t lowest_len, const uint8_t *highest,
                     size_t highest_len, uint32_t slots, size_t list_len,
                     uint32_t *found);

/* The entry of that name with the largest epoch at most the given one, and its
 * epoch; NULL and 0 when refused. */
uint32_t book_at_epoch(const struct book *b, const uint8_t *name,
                       size_t name_len, uint32_t epoch, uint32_t *shown,
                       const struct entry **entry);

/* The step of compaction. */
void book_compact(struct book *b);

/* The same with the other version's header size and longest text, and with the
 * target's room: the target's 1, then 20 and 13. */
uint32_t book_convert(struct book *b, size_t target_len);

/* The start of growth into a second image, 21 or the step of compaction with its
 * N and R. */
uint32_t book_grow(struct book *b, const uint8_t *second, size_t length);

/* Question 16 of the forms with a list and by way of a journal, put before the
 * call's other ones. */
uint32_t book_ask_listed(size_t image_len, size_t work_len, size_t list_len);
uint32_t book_ask_journaled(size_t image_len, size_t work_len);

#endif
