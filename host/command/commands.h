/* The commands, and what each is given. */
#ifndef COMMANDS_H
#define COMMANDS_H

#include "complain.h"
#include "image.h"
#include "typed.h"

#include <stddef.h>
#include <stdint.h>

/* Options that not every command takes, as bits: one line each. */
#define OPTION(n) (UINT64_C(1) << (n))
#define OPTION_KEY_SIZE OPTION(0)
#define OPTION_SLOTS OPTION(1)
#define OPTION_SEED OPTION(2)
#define OPTION_SIZE OPTION(3)
#define OPTION_REPLACE OPTION(4)
#define OPTION_APPEND OPTION(5)
#define OPTION_LONG OPTION(6)
#define OPTION_CRLF OPTION(7)
#define OPTION_EASTING OPTION(8)
#define OPTION_NORTHING OPTION(9)
#define OPTION_HEIGHT OPTION(10)
#define OPTION_NOTE OPTION(11)
#define OPTION_COLUMNS OPTION(12)
#define OPTION_DELIMITER OPTION(13)
#define OPTION_DECIMAL OPTION(14)
#define OPTION_SKIP OPTION(15)
#define OPTION_ANY_TEXT OPTION(16)
#define OPTION_DRY_RUN OPTION(17)
#define OPTION_SLOTS_READ OPTION(18)
#define OPTION_NO_TEXT OPTION(19)
#define OPTION_FORMAT OPTION(20)
#define OPTION_DELTA OPTION(21)
#define OPTION_NO_SYNC OPTION(22)
#define OPTION_KEEP_GOING OPTION(23)
#define OPTION_UPDATE OPTION(24)
#define OPTION_ENCODING OPTION(25)
#define OPTION_DROP OPTION(26)
#define OPTION_ALLOW_FAR OPTION(27)
#define OPTION_ALLOW_NEAR OPTION(28)
#define OPTION_ALLOW_SWAPPED OPTION(29)
#define OPTION_LOG OPTION(30)
#define OPTION_ALLOWED (OPTION_ALLOW_FAR | OPTION_ALLOW_NEAR | \
                        OPTION_ALLOW_SWAPPED)
#define OPTION_AGAINST OPTION(32)
#define OPTION_PAPER OPTION(33)
#define OPTION_STATION OPTION(34)
#define OPTION_SIGMA OPTION(35)
#define OPTION_SVG OPTION(36)
#define OPTION_BY OPTION(37)
#define OPTION_TSV OPTION(38)
#define OPTION_JSON OPTION(39)
#define OPTION_GSI OPTION(40)
#define OPTION_LANDXML OPTION(41)
#define OPTION_DXF OPTION(42)
#define OPTION_WIDTH OPTION(43)
#define OPTION_FIELDS OPTION(44)
#define OPTION_LITTLE OPTION(45)
#define OPTION_COLUMN OPTION(46)
#define OPTION_ALIKE OPTION(47)
#define OPTION_NEAR OPTION(48)
#define OPTION_CSV OPTION(49)
#define OPTION_EPOCH OPTION(51)
#define OPTION_EPOCH_UNIT OPTION(52)
#define OPTION_TOLERANCE OPTION(50)
#define OPTION_FROM OPTION(53)
#define OPTION_TO OPTION(54)
#define OPTION_ALPHA OPTION(55)
#define OPTION_FINISH OPTION(56)
#define OPTION_SET_ASIDE OPTION(57)
#define OPTION_SPREADSHEET OPTION(58)
#define OPTION_TEXT_FILE OPTION(59)
#define OPTION_FORM OPTION(61)    /* --pdf, --png and --html */
#define OPTION_BLOCK OPTION(62)   /* --project and --datum */
#define OPTION_SHEET OPTION(63)

/* Forms of rows, of which one at most is given. */
#define OPTION_FORMS (OPTION_TSV | OPTION_JSON | OPTION_CSV)

/* In place of the largest number of words: as many as there are. */
enum { ANY_NUMBER = -1 };

struct options {
    char **word;         /* what is no option, in its order */
    int words;
    uint64_t given;      /* bits of OPTION */
    uint64_t key_size;
    uint64_t slots;
    uint64_t seed;
    uint64_t size;
    uint64_t skip;
    uint64_t wait;
    uint64_t width;
    uint64_t column;
    const char *fields;
    const char *near;
    const char *epoch;
    uint32_t epoch_number; /* of --epoch, in the unit asked for */
    const char *unit;
    const char *easting;
    const char *northing;
    const char *height;
    const char *note;
    const char *columns;
    const char *delimiter;
    const char *decimal;
    const char *against;
    const char *paper;
    const char *station;
    const char *sigma;
    const char *by;
    const char *tolerance;
    const char *from;
    const char *to;
    const char *alpha;
    const char *format;
    const char *delta;
    const char *encoding;
    const char *drop;
    const char *text_file;
    const char *form;    /* --pdf, --png, --html, or NULL */
    const char *project;
    const char *datum;
    uint64_t sheet;
    int quiet;
    int help;
    int version;
};

struct command {
    const char *name;
    uint64_t takes;     /* bits of OPTION */
    int least;          /* words */
    int most;
    int (*run)(const struct options *);
    const char *help;
};

/* The command of that name, or NULL. */
const struct command *command_find(const char *name);

/* Prints the overall help, and that of a command. */
void help_print(FILE *to);
void help_print_command(const struct command *command, FILE *to);

/* Reads the words after a command's name: DONE or TROUBLE. The words are put
 * in another order. */
int options_read(struct options *o, const struct command *command, int count,
                 char **words);

/* An epoch as typed, in the unit of --epoch-unit: DONE, or TROUBLE after a
 * complaint. */
int epoch_wanted(const struct options *o, const char *word, uint32_t *epoch);

/* Does --epoch-unit say week? DONE, or TROUBLE after a complaint. */
int epoch_weeks(const struct options *o, int *weeks);

/* Each answers an enum status. */
int run_create(const struct options *o);
int run_add(const struct options *o);
int run_set(const struct options *o);
int run_rename(const struct options *o);
int run_withdraw(const struct options *o);
int run_delete(const struct options *o);
int run_get(const struct options *o);
int run_count(const struct options *o);
int run_list(const struct options *o);
int run_find(const struct options *o);
int run_at(const struct options *o);
int run_epochs(const struct options *o);
int run_report(const struct options *o);
int run_store_records(const struct options *o);
int run_read_records(const struct options *o);
int run_check(const struct options *o);
int run_compact(const struct options *o);
int run_book(const struct options *o);
int run_stat(const struct options *o);
int run_batch(const struct options *o);
int run_log(const struct options *o);
int run_import(const struct options *o);
int run_export(const struct options *o);
int run_dump(const struct options *o);
int run_load(const struct options *o);
int run_delta(const struct options *o);
int run_apply(const struct options *o);
int run_recover(const struct options *o);
int run_diff(const struct options *o);
int run_plot(const struct options *o);
int run_figure(const struct options *o);
int run_scramble(const struct options *o);
int run_take_out(const struct options *o);
int run_sum(const struct options *o);
int run_copy(const struct options *o);
int run_convert(const struct options *o);
int run_grow(const struct options *o);
int run_show(const struct options *o);

/* ---- shared by them ---- */

/* Says why `file` was refused; answers REFUSED. */
int refuse(const char *file, uint32_t number);

/* The same for a point; the name is as it was typed. `freed` are bytes that
 * compaction would free if that made room for its text, else 0. */
int refuse_point(const char *file, const char *name, uint32_t number,
                 uint32_t key_size, uint64_t freed);

/* Says what is wrong with an accepted image that is not sound, as check does;
 * answers REFUSED, TROUBLE for no memory, or DONE if it is sound. */
int say_unsound(FILE *to, const struct buffer *copy, int quiet);

/* With --slots: how many slots the search for a point read. */
void say_slots(const struct options *o, const char *name, uint32_t slots_read);

/* A key from a typed name without the blanks at its ends, padded with zero
 * bytes to the key size. A longer name stays longer, and the library refuses
 * it. 0, or -1 for no memory. */
int key_from(struct buffer *key, const uint8_t *typed, size_t length,
             uint32_t key_size);

/* What can be done about a refusal: words in brackets, or none. */
const char *advice_for(uint32_t number);

/* How the command line wants its file opened to be changed. */
struct manner to_change(const struct options *o);

/* Asks questions 1, 5 and 6 and reads the key size. Answers the number. */
uint32_t ask_header(const uint8_t *bytes, size_t length, uint32_t *key_size);

/* A copy of an accepted file: DONE, or the status after a complaint. */
int copy_accepted(struct buffer *copy, const struct options *o,
                  uint32_t *key_size);

/* Says that a point is left out because of its damage; answers REFUSED. The
 * name is as it is shown. */
int leave_out(const char *file, const struct buffer *name, uint32_t number);

/* Says that a point has no text; answers REFUSED. */
int no_text(const struct options *o, const char *name);

/* get for several points, or in another form. */
int get_several(const struct options *o);

/* The mode of add: new, replace or append. */
uint32_t mode_of(const struct options *o);

#endif
