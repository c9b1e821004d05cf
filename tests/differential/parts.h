/* What the parts of the differential test share. */
#ifndef PARTS_H
#define PARTS_H

#include "../calls.h"
#include "../reference/book.h"

#define PAGE 4096u
#define MIB16 16777216u
#define GIB 1073741824u    /* the longest image */
#define SLOTS_MAX 1048576u /* the largest table */
#define OLD_SLOTS 65536u   /* the same before 02; images ended at MIB16 */
#define POOL (MIB16 + 64 * PAGE) /* random bytes for data and old content */
#define TAIL (64 * PAGE)         /* the same at the end of the data */
#define EVEN (32 * PAGE)         /* data of one repeated byte, for long runs */
#define EVENS 3u                 /* of so many bytes */
#define GUARD 64u
#define GUARD_BYTE 0xA7
#define NAMES 64u

#define PAIR 8u /* bytes: offset and length of a stretch */

/* Those up to compaction, storing columns and recovery write the image. Those
 * before recovery are calls on a file, those up to the check document 01's. The
 * start is growth's. */
enum kind { CREATE, ADD, DELETE, COMPACT, LOOKUP, COUNT, WALK, CHECK, STORE,
            READ, SELECT, AT_EPOCH, CONVERT, RECOVER, START, KINDS };

#define NUMBERS 24 /* answers from 0 to 23 */

extern const char *const kind_name[KINDS];

/* As 01 has the call; with slots read; with the list of what changed; by way of
 * a journal. */
enum form { PLAIN, COUNTED, LISTED, JOURNALED };

struct call {
    enum kind kind;
    size_t image_len;
    const uint8_t *key;
    size_t key_len;
    const uint8_t *data;
    size_t data_len;
    uint32_t mode;
    uint32_t width;    /* of records */
    const uint8_t *lowest; /* bytes of names */
    size_t lowest_len;
    const uint8_t *highest;
    size_t highest_len;
    uint32_t epoch;
    uint32_t key_size; /* create */
    uint32_t slots;
    uint32_t seed;
    uint32_t from; /* walk */
    enum form form;
    size_t work_len; /* of a listed or journaled call */
    size_t list_len; /* of the slice that is filled, too */
    size_t target_len; /* of a conversion; 0 for one that is still chosen */
    size_t journal_len;
    uint8_t mark; /* of the journal, before the call */
    int again;    /* with the slices as the last call left them */
    int paired;   /* on the pair; image_len is the new image's */
    size_t old_len; /* of the pair's old image */
};

/* first and second: the call's outputs in the order of its arguments. */
struct answer {
    uint32_t number;
    uint32_t first;
    uint32_t second;
    uint32_t read;  /* slots, of a counted call */
    uint32_t pairs; /* of a listed call */
    uint32_t bytes; /* of the records read */
    uint32_t found; /* slots in the ranges */
    uint32_t shown; /* epoch */
    uint32_t in_new; /* the message, of a call on the pair */
    uint32_t more;  /* slots in the ranges, of the new image */
};

/* ---- the state of a run (differential.c) ---- */

struct run {
    uint64_t seed;
    uint64_t calls;
    uint64_t call_limit;
    unsigned long seconds;
    int quiet;
    int strict;
    int old_limits; /* images and tables within document 01's limits alone */
    int old_calls;  /* document 01's calls alone */
    int old_check;  /* plain's check does not ask whether messages share bytes */
};
extern struct run run;

/* Seen answers, call by call. */
extern uint64_t seen[KINDS][NUMBERS];
extern uint64_t seen_on_pair[KINDS][NUMBERS];

/* The list being run. */
struct list {
    uint64_t number;
    const char *what;
    uint32_t key_size;
    uint32_t slots;
    int with_book;
    int growing; /* the list's state is a pair: lent is the new image */
    struct book book;
    uint32_t names;
    uint8_t name[NAMES][32];
    uint32_t last_length[NAMES]; /* of the name's last data */
    uint8_t letters[6];          /* the bytes its names are made of */
    struct call now;
};
extern struct list list;

/* ---- random numbers (random.c) ---- */

void random_start(uint64_t seed);
uint32_t random32(void);
uint32_t below(uint32_t n); /* 0 to n - 1 */
int one_in(uint32_t n);
uint32_t pick(const uint32_t *from, uint32_t n);

#define PICK(array) pick(array, (uint32_t)(sizeof(array) / sizeof *(array)))

/* ---- lent memory (memory.c) ---- */

/* The lent images and what they were before the call. */
struct lent {
    uint8_t *library_end;
    uint8_t *plain_end;
    uint8_t *library;
    uint8_t *plain;
    uint8_t *before;
    uint8_t *scratch; /* room for one image more */
    uint32_t shift; /* guard bytes behind the image */
    uint32_t length;
};
extern struct lent lent;
extern struct lent older; /* the old image of a pair */

/* A slice that both are lent beside the image. What it held before the call is
 * kept of its first SEEN_MOST bytes. */
#define SEEN_MOST 262144u

struct slice {
    uint8_t *library_end;
    uint8_t *plain_end;
    uint8_t *library;
    uint8_t *plain;
    uint8_t *before;
    uint32_t shift; /* guard bytes behind it */
    size_t length;
};
extern struct slice work;
extern struct slice listing; /* of changes */
extern struct slice journal;
extern struct slice filled; /* by a call that reads */
extern struct slice target; /* of a conversion */

extern uint8_t *data_start;
extern size_t data_size;
extern uint8_t *even_start;
extern uint8_t *key_end;
extern uint8_t *lowest_end;
extern uint8_t *highest_end;

void map_all(void);

/* An image of the given length; its content is free. */
void set_length(uint32_t length);

/* The same of the pair's old image. */
void set_old_length(uint32_t length);

/* What is lent of an image for a slice of that length, which may be another than
 * the image's. */
uint8_t *slice_of(const struct lent *l, uint8_t *image, size_t length);

/* The library's image holds what both shall start from. */
void share_image(void);

/* Both start from random bytes. */
void old_content(void);

/* A slice of the given length, with what was there before. */
void lend_slice(struct slice *s, size_t length);

/* The same random bytes for both. */
void fill_slice(struct slice *s);

/* How many of its bytes are filled and compared. */
size_t seen_of(const struct slice *s);

/* Are the bytes around what the library was lent as they were? */
int guards_hold(const uint8_t *at, size_t length, uint32_t shift);

/* Write to both images. */
void poke(size_t offset, uint8_t value);
void poke32(size_t offset, uint32_t value);

uint32_t get32(const uint8_t *at);

/* The four bytes at that offset of the image. */
uint32_t field(uint32_t offset);

/* Bytes of a message's header in an image, by its version: a letter and 3 bytes,
 * or 4. */
uint32_t header_size_of(const uint8_t *image);
uint32_t header_size(void);

/* The length in a message's header. */
uint32_t length_in(const uint8_t *image, uint32_t at);

/* Write a message's header to both images. */
void poke_header(uint32_t at, uint32_t letter, uint32_t length);

/* ---- differences (report.c) ---- */

/* Where the run is; the caller says what differs, and ends it. */
void print_failure(void);

void fail(const char *what);
void fail_slice(const char *what, const char *differs);
void fail_number(const char *what, const char *one, uint64_t a,
                 const char *other, uint64_t b);

/* A crash and a call that does not end are reported like a difference. */
void watch_signals(void);

/* ---- one call on all sides (compare.c, book.c) ---- */

/* Begins list.now, a call on the whole image. */
void new_call(enum kind kind);

/* Runs list.now on all sides and compares. */
struct answer run_call(void);

/* A call on one side. */
struct answer perform_plain(uint8_t *image, const struct call *c);
struct answer perform_library(uint8_t *image, const struct call *c);

/* All outputs as no call leaves them. */
struct answer unset_answer(void);

/* The two sides' calls: plain C's are these. */
extern const struct calls plain;

void same_as_book(const char *what, uint32_t library, uint32_t book);
void compare_book(const struct call *c, const struct answer *a);

/* What an image shows is the entry's text; an empty text is another than none. */
void compare_text(const uint8_t *image, const struct answer *a,
                  const struct entry *e);

/* ---- arguments (choose.c) ---- */

/* A few more names than slots, so that tables fill up. */
void choose_names(void);

/* The call's key: size bytes, ending at the wall. */
uint8_t *lend_key(size_t size);

/* As many more as the table has become larger. */
void choose_more_names(void);

/* Gives the call a key; answers which name it is, or NAMES for another. */
uint32_t choose_key(void);

/* The call's data: so many bytes from the pool, or ending at the wall. */
void lend_data(size_t size);
/* So many bytes, or up to `by` more or fewer, but none fewer than none. */
void lend_about(int64_t size, uint32_t by);
void choose_data(uint32_t name);

uint32_t choose_mode(void);
uint32_t choose_key_size(void);
uint32_t choose_slots(void);

/* K and N; now and then the table ends where a page does. */
void choose_shape(uint32_t *key_size, uint32_t *slots);

uint32_t data_offset(uint32_t key_size, uint32_t slots);

/* Pages behind the table. */
uint32_t choose_image_length(uint32_t data);

size_t wrong_image_length(void);

/* ---- calls with chosen arguments (steps.c) ---- */

uint32_t create(uint32_t key_size, uint32_t slots);
void step_add(void);
void step_plain(enum kind kind);
void step_compact(void);

/* A create that may be refused with 2, 3 or 4, or several at once. */
void step_create(void);

/* Any call on a slice of an unlawful length. */
void step_wrong_length(void);

/* Any call but create on a slice of the largest length; it holds no image. */
void step_longest(void);

/* Every name once, in mode 1: a full table early on. */
void add_all_names(void);

void look_up(const uint8_t *name);

/* One call; weights say of a hundred how many are of a kind or one before. */
void step(const uint8_t *weights);

/* ---- made-up images (images.c) ---- */

#define HEADERS 12u

/* Where made-up messages stand; one may begin below D. */
struct messages {
    uint32_t count;
    uint32_t at[HEADERS + 1];
};
extern struct messages messages;

/* A header that questions 5 and 6 take, but for C, with any hash numbers. */
void make_header(uint32_t data);

/* A length for a message header at an offset with so much space behind. */
uint32_t make_length(uint32_t space);

uint32_t make_offset(void);
void make_slot(uint32_t slot, const uint8_t *name);

void made_up_image(void);
void ring_image(void);
void grown_image(void);
void random_image(void);

/* The same with list's K, N and names as they are. */
void make_up_image(int brim);

/* ---- sound images of others (reopened.c) ---- */

void sound_image(void);

/* ---- compaction by its definition (packed.c) ---- */

/* After an accepted one: the image against the one before. */
void compare_packed(void);

/* ---- the converter (converted.c) ---- */

void step_convert(void);

/* A conversion whose target is too small by a byte, or just large enough. */
void step_convert_to_brim(void);

/* To the other version, in a slice that is long enough. */
void convert_list(void);

/* Lends list.now a target, as long as it must be or not. */
void lend_target(void);
void compare_converted(const struct call *c, const struct answer *a);

/* The list's image is the target of the conversion. */
void go_on_in_target(void);

/* ---- a call on the pair (pair.c) ---- */

/* Begins list.now, a call on the whole pair; runs it on all sides. */
void new_pair_call(enum kind kind);
struct answer run_pair_call(void);

/* A slice for the records of the call's key, as long as it may be or not. */
void lend_records(void);

/* ---- growth (growth.c) ---- */

/* A start; a list goes on with the pair if it is accepted. */
void step_start(void);

/* One call on the pair. */
void step_pair(void);

/* The pair finds exactly the book's points; then growth goes on to its end, or
 * the list ends in it. Answers whether growth has ended. */
int close_pair(void);

/* The new image is the list's, if no point is left in the old one. */
void go_on_in_new(void);

/* Puts the lent image in the old one's place. */
void make_lent_old(void);

/* What new space of both takes: the active messages of an image that is opened. */
uint64_t active_in(const uint8_t *image);

/* ---- what a call changed (changed.c) ---- */

/* Runs of bytes that differ, and the bytes in them. */
struct changed {
    size_t runs;
    size_t bytes;
};

struct changed count_changed(const uint8_t *a, const uint8_t *b,
                             size_t length);

/* What list.now will change. */
struct changed foresee(void);

/* Lends list.now a working slice, mostly as long as it must be. */
void lend_work(void);

/* Now and then a length that does not fit 32 bits. */
size_t widen(size_t length);

uint32_t pair_offset(const uint8_t *pairs, uint32_t i);
uint32_t pair_length(const uint8_t *pairs, uint32_t i);

/* These pairs are runs of changed bytes, sorted and unbroken. */
void compare_pairs(const uint8_t *pairs, uint32_t count, size_t length);

/* Copied into the image before, the stretches give the one after. */
void copy_stretches(const uint8_t *pairs, uint32_t count, size_t length);

/* The library's against plain C's, and, behind what was written, against what
 * was there; and the bytes around it. */
void compare_slice(const char *what, const struct slice *s, size_t written);

/* ---- the list of what changed (listed.c) ---- */

/* Lends list.now a working slice and a list, as long as they may be or not. */
void lend_listed(void);

/* After the call: the list by its definition. Copies the listed stretches into
 * the image before. */
void compare_listed(const struct call *c, const struct answer *a);

/* ---- where two images differ (runs.c) ---- */

/* After one of four calls that wrote: the image before it and after it, run by
 * run. */
void compare_runs(size_t length);

/* ---- readings by column (columns.c) ---- */

/* Storing or reading; often what was stored is read at once. */
void step_columns(void);

/* Lends list.now a slice for records, as long as it may be or not. */
void lend_filled(void);

/* After an accepted storing, and after a reading. */
void compare_stored(const struct call *c);
void compare_filled(const struct call *c, const struct answer *a);
void store_again(const struct call *c, const struct answer *a);

/* ---- names in ranges (ranges.c) ---- */

void step_select(void);

/* Lends list.now ranges and a list, as long as they may be or not. */
void lend_selected(void);
void compare_selected(const struct call *c, const struct answer *a);
void compare_selected_of_both(const struct call *c, const struct answer *a);

/* ---- epochs (epochs.c) ---- */

void step_epoch(void);

/* Gives list.now a name without its epoch, and an epoch. */
void lend_name(void);
void compare_epoch(const struct call *c, const struct answer *a);

/* ---- journal and recovery (journal.c) ---- */

void lend_journaled(void);
void compare_journaled(const struct call *c, const struct answer *a);

/* Of recovery. */
void lend_journal(void);
void compare_recovered(const struct call *c, const struct answer *a);
void step_recover(void);

/* ---- damage.c, splice.c, lists.c ---- */

void damage(void);

void list_from_create(void);
void list_reopened(void);
void list_on_damage(void);
void list_on_splice(void);
void list_on_pair(void);

#endif
