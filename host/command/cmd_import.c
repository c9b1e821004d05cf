/* import: points from the lines of a CSV file.
 *
 * A point's message is easting, northing, height and note as CSV text, or the
 * column text byte for byte. Empty fields are no message, unless the column
 * empty says that it is an empty one. */
#include "import.h"

#include "change_words.h"
#include "epoch.h"
#include "image_header.h"
#include "intake.h"

#include <errno.h>
#include <stdlib.h>
#include <string.h>
#include <sys/stat.h>

int import_is_dry(const struct import *m)
{
    return (m->o->given & OPTION_DRY_RUN) != 0;
}

int import_is_dated(const struct import *m)
{
    return m->columns.fields != 0 && m->columns.at[COLUMN_EPOCH] >= 0;
}

/* Are the other lines stored when one is refused? */
static int keeps_going(const struct import *m)
{
    return (m->o->given & OPTION_KEEP_GOING) != 0;
}

/* ---- words ---- */

const char *import_place(struct import *m, unsigned long line)
{
    char number[32];

    snprintf(number, sizeof number, ": line %lu", line);
    m->place.length = 0;
    if (buffer_put(&m->place, m->input, strlen(m->input)) != 0 ||
        buffer_put(&m->place, number, strlen(number) + 1) != 0)
        return m->input;
    return (const char *)m->place.bytes;
}

int import_is_told(struct import *m)
{
    progress_end(&m->progress);
    return m->refused < REFUSALS_SHOWN ||
           (keeps_going(m) && !import_is_dry(m));
}

static int complain_of_line(struct import *m, const char *words)
{
    if (import_is_told(m))
        complain("%s: %s", import_place(m, m->record.line), words);
    return TROUBLE;
}

static int complain_of_input(struct import *m, enum csv_answer answer)
{
    progress_end(&m->progress);
    if (answer == CSV_NO_INPUT)
        complain("%s: cannot be read: %s", m->input, strerror(errno));
    else if (answer == CSV_WIDE)
        complain("%s: %s", m->input, csv_words(answer));
    else
        complain("%s: %s", import_place(m, m->record.line), csv_words(answer));
    return TROUBLE;
}

int import_goes_on(struct import *m, int status, unsigned long line)
{
    if (status == DONE)
        return 1;
    if ((!import_is_dry(m) && !keeps_going(m)) || m->columns.fields == 0 ||
        m->failed)
        return 0;
    m->refused++;
    if (m->stop_line == 0 || line < m->stop_line) {
        m->stop_line = line;
        m->stop_status = status;
    }
    return 1;
}

/* ---- the delimiter ---- */

static const char delimiters[] = { ',', ';', '\t', ' ' };
static const char *const delimiter_words[] = { "comma", "semicolon", "tab",
                                               "blank" };

/* Of these only the first three are found out: a blank may be in a name. */
enum { DELIMITERS = sizeof delimiters, DELIMITERS_FOUND = 3 };

/* Another sign that is in no number and no quote, by itself. */
static int is_sign(const char *word)
{
    return word[0] != '\0' && word[1] == '\0' &&
           strchr("|:!#%&/~^", word[0]) != NULL;
}

static int delimiter_from(const char *word)
{
    for (int i = 0; i < DELIMITERS; i++)
        if (strcmp(word, delimiter_words[i]) == 0 ||
            (word[0] == delimiters[i] && word[1] == '\0'))
            return delimiters[i];
    if (is_sign(word))
        return word[0];
    return strcmp(word, "\\t") == 0 ? '\t' : 0;
}

static const char *delimiter_word(int delimiter)
{
    for (int i = 0; i < DELIMITERS; i++)
        if (delimiters[i] == delimiter)
            return delimiter_words[i];
    return "as named";
}

/* How much a line looks like one of points: numbers and words of a heading
 * count, and then fields. */
static size_t likeness(const struct record *r)
{
    size_t found = 0;

    for (size_t i = 0; i < r->fields && i < FIELDS_MAX; i++) {
        const struct piece field = piece_trim(record_field(r, i));

        found += is_number(field, '.') || is_number(field, ',') ||
                 column_of(field) != COLUMN_UNKNOWN;
    }
    return found * FIELDS_MAX + (r->fields < FIELDS_MAX ? r->fields : 0);
}

/* The delimiter with which the first line looks most like one of points. */
static int find_delimiter(struct import *m)
{
    size_t most = 0;
    int found = delimiters[0];

    for (int i = 0; i < DELIMITERS_FOUND; i++) {
        enum csv_answer answer = csv_look(&m->csv, &m->record, delimiters[i]);
        size_t like = likeness(&m->record);

        if (answer != CSV_LATE_TEXT && like > most) {
            most = like;
            found = delimiters[i];
        }
    }
    return found;
}

/* ---- a record ---- */

static struct piece column(const struct import *m, int which)
{
    const struct piece none = { (const uint8_t *)"", 0 };

    return m->columns.at[which] < 0
        ? none : record_field(&m->record, (size_t)m->columns.at[which]);
}

/* Is the record the heading again, as where files were put end to end? */
static int is_heading_again(const struct import *m)
{
    const struct record *r = &m->record, *h = &m->heading;

    return h->fields != 0 && r->fields == h->fields &&
           r->bytes.length == h->bytes.length &&
           memcmp(r->bytes.bytes, h->bytes.bytes, h->bytes.length) == 0 &&
           memcmp(r->ends, h->ends, h->fields * sizeof h->ends[0]) == 0;
}

/* An epoch is said once, and has room in the file's keys. */
static int ask_epochs(struct import *m)
{
    if (!import_is_dated(m))
        return DONE;
    if (m->o->given & OPTION_EPOCH) {
        complain("%s: --epoch or a column for the epoch, not both", m->input);
        return TROUBLE;
    }
    return m->key_size > EPOCH_SIZE ? DONE
                                    : refuse(m->o->word[0], BHTF_NO_EPOCHS);
}

static int has_digit(struct piece p)
{
    for (size_t i = 0; i < p.length; i++)
        if (p.bytes[i] >= '0' && p.bytes[i] <= '9')
            return 1;
    return 0;
}

/* May the first line be a heading whose words nobody knows? Where coordinates
 * are asked for a word in their place is refused anyway. Else it has words
 * alone, and a name without a digit. */
static int may_be_heading(const struct import *m)
{
    const struct record *r = &m->record;
    int numbers = m->columns.at[EASTING] >= 0 || m->columns.at[HEIGHT] >= 0 ||
                  import_is_dated(m);

    if (m->o->given & OPTION_SKIP || r->fields != m->columns.fields ||
        (numbers && !(m->o->given & OPTION_ANY_TEXT)) ||
        has_digit(column(m, COLUMN_NAME)))
        return 0;
    for (size_t i = 0; i < r->fields; i++) {
        const struct piece field = piece_trim(record_field(r, i));

        if (field.length == 0 || is_number(field, '.') || is_number(field, ','))
            return 0;
    }
    return 1;
}

static int complain_of_doubt(struct import *m)
{
    if (import_is_told(m))
        complain("%s: this may be a heading or a point: --skip %lu passes over "
                 "it, --skip %lu takes it for a point",
                 import_place(m, m->record.line), m->record.line,
                 m->record.line - 1);
    return TROUBLE;
}

/* The first record settles the columns; *used says whether it was a heading. */
static int read_first(struct import *m, int *used)
{
    int status;

    *used = is_heading(&m->record);
    if (!*used && m->columns.fields != 0)
        return may_be_heading(m) ? complain_of_doubt(m) : ask_epochs(m);
    if (!*used)
        return complain_of_line(m, "the first line is no heading, so that "
                                   "nobody knows which column is which; say "
                                   "--columns PNEZD, --columns PENZD or the "
                                   "like");
    status = columns_from_heading(&m->columns, &m->record,
                                  import_place(m, m->record.line));
    m->heading = m->record;
    memset(&m->record, 0, sizeof m->record);
    return status == DONE ? ask_epochs(m) : status;
}

/* Writes a decimal comma as a point, in the record's own bytes. */
static void use_point(struct record *r, struct piece number)
{
    uint8_t *at = r->bytes.bytes + (number.bytes - r->bytes.bytes);
    uint8_t *comma = memchr(at, ',', number.length);

    if (comma != NULL)
        *comma = '.';
}

/* What helps is said once. */
static void advise(struct import *m, enum fault fault)
{
    if (m->advised)
        return;
    if (fault == FAULT_COMMA)
        complain("%s: --decimal %s takes such numbers", m->input,
                 m->decimal == ',' ? "." : ",");
    else if (m->heading.fields == 0 && m->crowd.count + m->refused == 0)
        complain("%s: if that is a heading, --skip %lu passes over it",
                 m->input, m->record.line);
    m->advised = 1;
}

static int complain_of_field(struct import *m, enum fault fault, int field,
                             struct piece value)
{
    if (!import_is_told(m))
        return TROUBLE;
    complain_of_fault(import_place(m, m->record.line), fault, field, value);
    advise(m, fault);
    return TROUBLE;
}

/* The four fields: coordinates without blanks around them, and with a decimal
 * point. */
static int take_fields(struct import *m, struct piece fields[POINT_FIELDS])
{
    enum fault fault = NO_FAULT;
    int field;

    for (int i = 0; i < POINT_FIELDS; i++)
        fields[i] = i == NOTE ? column(m, i) : piece_trim(column(m, i));
    if (!(m->o->given & OPTION_ANY_TEXT))
        fault = point_fault(fields, m->decimal, &field);
    if (fault != NO_FAULT)
        return complain_of_field(m, fault, field, fields[field]);
    for (int i = EASTING; i <= HEIGHT && m->decimal == ','; i++)
        if (is_number(fields[i], ','))
            use_point(&m->record, fields[i]);
    return DONE;
}

static int complain_of_number_of_fields(struct import *m)
{
    struct buffer words = { NULL, 0, 0 };

    if (columns_show(&m->columns, &words) != 0 ||
        buffer_put_byte(&words, '\0') != 0)
        out_of_memory();
    else if (import_is_told(m))
        complain("%s: the line has %lu field%s, and not the %lu of %s",
                 import_place(m, m->record.line),
                 (unsigned long)m->record.fields,
                 m->record.fields == 1 ? "" : "s",
                 (unsigned long)m->columns.fields, (const char *)words.bytes);
    buffer_free(&words);
    return TROUBLE;
}

/* ---- a point in the crowd ---- */

static int is_empty(const struct piece fields[POINT_FIELDS])
{
    for (int i = 0; i < POINT_FIELDS; i++)
        if (fields[i].length != 0)
            return 0;
    return 1;
}

/* Does the text say what the fields say? */
static int says(struct import *m, struct piece text,
                const struct piece fields[POINT_FIELDS])
{
    struct piece own[POINT_FIELDS];

    if (is_empty(fields))
        return 1;
    if (!point_take(&m->apart, text, own))
        return 0;
    for (int i = 0; i < POINT_FIELDS; i++)
        if (!same_piece(i == NOTE ? own[i] : piece_trim(own[i]), fields[i]))
            return 0;
    return 1;
}

/* Is the text an empty one? -1 after a complaint, where the columns do not go
 * together. */
static int says_empty(struct import *m, struct piece text,
                      const struct piece fields[POINT_FIELDS])
{
    const struct piece word = piece_trim(column(m, COLUMN_EMPTY));

    if (word.length == 0)
        return 0;
    if (!same_word(word.bytes, word.length, "yes")) {
        complain_of_line(m, "the column empty takes yes, or nothing");
        return -1;
    }
    if (text.length == 0 && is_empty(fields))
        return 1;
    complain_of_line(m, "the column empty says yes, and there is a text; leave "
                        "one of them empty");
    return -1;
}

/* Room for one more: 0, or -1 for no memory. */
static int make_room(struct crowd *c)
{
    size_t room = c->room == 0 ? 256 : 2 * c->room;
    struct incoming *all;

    if (c->count < c->room)
        return 0;
    all = realloc(c->all, room * sizeof *all);
    if (all == NULL)
        return -1;
    c->all = all;
    c->room = room;
    return 0;
}

/* The epoch of a line, where there is a column for it. */
static int take_epoch(struct import *m, uint32_t *epoch)
{
    const struct piece field = piece_trim(column(m, COLUMN_EPOCH));
    char word[32];

    *epoch = 0;
    if (!import_is_dated(m))
        return DONE;
    if (field.length > 0 && field.length < sizeof word) {
        memcpy(word, field.bytes, field.length);
        word[field.length] = '\0';
        if (epoch_read(word, m->weeks, epoch) == 0)
            return DONE;
    }
    return complain_of_line(m, EPOCH_IS);
}

static int put_point(struct import *m, const struct piece fields[POINT_FIELDS])
{
    struct crowd *c = &m->crowd;
    const struct piece name = piece_trim(column(m, COLUMN_NAME));
    const struct piece text = column(m, COLUMN_TEXT);
    int empty = says_empty(m, text, fields);
    struct incoming *p;
    uint32_t epoch;
    int done;

    if (empty < 0 || take_epoch(m, &epoch) != DONE)
        return TROUBLE;
    if (text.length > 0 && !says(m, text, fields))
        return complain_of_line(m, "the column text says something else than "
                                   "the others; leave it empty, or them");
    if (make_room(c) != 0)
        return out_of_memory();
    p = &c->all[c->count++];
    memset(p, 0, sizeof *p);
    p->line = m->record.line;
    p->epoch = epoch;
    p->name = c->bytes.length;
    done = buffer_put(&c->bytes, name.bytes, name.length);
    p->text = c->bytes.length;
    done |= text.length > 0 ? buffer_put(&c->bytes, text.bytes, text.length)
                            : point_put(&c->bytes, fields);
    p->text_end = c->bytes.length;
    p->none = !empty && p->text_end == p->text;
    return done == 0 ? DONE : out_of_memory();
}

/* A line of delimiters alone, as spreadsheets leave below a table. */
static int is_blank_line(const struct record *r)
{
    for (size_t i = 0; i < r->fields && i < FIELDS_MAX; i++)
        if (piece_trim(record_field(r, i)).length > 0)
            return 0;
    return 1;
}

static int read_point(struct import *m)
{
    struct piece fields[POINT_FIELDS];
    int first = m->first;
    int heading = 0;
    int status = DONE;

    if (is_blank_line(&m->record))
        return DONE;
    m->first = 0;
    if (first)
        status = read_first(m, &heading);
    if (status != DONE || heading || is_heading_again(m))
        return status;
    if (m->record.fields != m->columns.fields)
        return complain_of_number_of_fields(m);
    status = take_fields(m, fields);
    return status == DONE ? put_point(m, fields) : status;
}

/* All records of the input. */
static int read_all(struct import *m)
{
    int status = DONE;

    while (!interrupted) {
        enum csv_answer answer = csv_read(&m->csv, &m->record);

        if (answer == CSV_END || (interrupted && answer == CSV_NO_INPUT))
            break;
        if (answer != CSV_RECORD)
            return complain_of_input(m, answer);
        status = read_point(m);
        if (!import_goes_on(m, status, m->record.line))
            return status;
        if (m->record.line % 256 == 0)
            progress_show(&m->progress, (unsigned long)m->crowd.count,
                          m->csv.taken);
    }
    return DONE;
}

/* What the columns were taken to be. */
static int print_columns(struct import *m)
{
    struct buffer words = { NULL, 0, 0 };

    if (m->columns.fields == 0 || m->kind != 0)
        return DONE;
    if (columns_show(&m->columns, &words) != 0)
        return out_of_memory();
    printf("columns %.*s from %s, delimiter %s, decimal %s\n",
           (int)words.length, (const char *)words.bytes,
           m->heading.fields != 0 && !(m->o->given & OPTION_COLUMNS)
               ? "the heading" : "--columns",
           delimiter_word(m->csv.delimiter),
           m->decimal == ',' ? "comma" : "point");
    buffer_free(&words);
    return DONE;
}

/* ---- opening ---- */

static int read_options(struct import *m)
{
    const struct options *o = m->o;

    m->decimal = '.';
    m->columns.dates = o->unit != NULL && !(o->given & OPTION_EPOCH);
    if (epoch_weeks(o, &m->weeks) != DONE)
        return TROUBLE;
    m->kind = o->given & (OPTION_GSI | OPTION_LANDXML);
    if (foreign_options(o->given) != DONE ||
        drop_read(o->drop, &m->dropped) != 0 ||
        encoding_known(o->encoding) != 0)
        return TROUBLE;
    if (o->columns != NULL &&
        columns_from_option(&m->columns, o->columns) != DONE)
        return TROUBLE;
    if (o->delimiter != NULL && delimiter_from(o->delimiter) == 0) {
        complain("--delimiter is comma, semicolon, tab or blank, and not %s",
                 o->delimiter);
        return TROUBLE;
    }
    if (o->decimal == NULL)
        return DONE;
    if (strcmp(o->decimal, ",") == 0 || strcmp(o->decimal, "comma") == 0)
        m->decimal = ',';
    else if (strcmp(o->decimal, ".") != 0 && strcmp(o->decimal, "point") != 0) {
        complain("--decimal is , or . and not %s", o->decimal);
        return TROUBLE;
    }
    return DONE;
}

static int same_file(FILE *file, const char *path)
{
    struct stat a, b;

    return fstat(fileno(file), &a) == 0 && stat(path, &b) == 0 &&
           a.st_dev == b.st_dev && a.st_ino == b.st_ino;
}

static int open_input(struct import *m)
{
    int standard = strcmp(m->o->word[1], "-") == 0;

    m->input = standard ? "standard input" : m->o->word[1];
    m->file = standard ? stdin : fopen(m->o->word[1], "r");
    if (m->file == NULL) {
        complain("%s: cannot open: %s", m->input, strerror(errno));
        return TROUBLE;
    }
    if (same_file(m->file, m->o->word[0])) {
        complain("%s: cannot be imported into itself", m->input);
        return TROUBLE;
    }
    return DONE;
}

/* What the file is like before the first point. */
static int look_at_file(struct import *m)
{
    const struct target to = import_target(m);

    m->version = version_of(to.image);
    return neighbours_find(&m->neighbours, to.image, to.length,
                           m->key_size) == 0 ? DONE : out_of_memory();
}

static int open_image(struct import *m)
{
    uint32_t number;
    int status;

    if (image_open(&m->image, m->o->word[0], to_change(m->o)) != 0)
        return TROUBLE;
    m->image.stop = &interrupted;
    number = ask_header(m->image.bytes, m->image.length, &m->key_size);
    status = number == BHTF_ACCEPTED ? look_at_file(m)
                                     : refuse(m->o->word[0], number);
    if (status != DONE)
        image_drop(&m->image);
    else if (delta_append_begin(&m->append, &m->image, m->o->delta) != 0)
        status = TROUBLE;
    return status;
}

/* ---- import ---- */

/* Reads up to the first line, and settles the delimiter. */
static enum csv_answer read_head(struct import *m)
{
    enum csv_answer answer = csv_from_file(&m->csv, m->file, m->o->skip);
    int named = csv_named_delimiter(&m->csv);

    if (named != 0)
        answer = csv_pass_line(&m->csv);
    if (m->o->delimiter != NULL)
        m->csv.delimiter = delimiter_from(m->o->delimiter);
    else
        m->csv.delimiter = named != 0 ? named : find_delimiter(m);
    m->record.line = m->csv.line;
    return answer;
}

static int read_csv(struct import *m)
{
    enum csv_answer answer = read_head(m);

    return answer == CSV_RECORD || interrupted
        ? read_all(m) : complain_of_input(m, answer);
}

/* Points of another format are made lines of CSV first. */
static int read_foreign(struct import *m)
{
    const struct buffer *csv = &m->arrivals.csv;
    int status = columns_from_option(&m->columns, "PENZD");

    m->arrivals.input = m->input;
    if (status == DONE)
        status = foreign_read(&m->arrivals, m->file, m->kind, m->o->quiet);
    if (status != DONE)
        return status;
    m->first = 0;
    csv_from_bytes(&m->csv, csv->bytes, csv->length);
    return read_all(m);
}

static unsigned long lines_in(const uint8_t *part, size_t length)
{
    unsigned long lines = 0;

    for (size_t i = 0; i < length; i++)
        lines += part[i] == '\n';
    return lines;
}

/* The input's bytes, whole. */
static int read_bytes(struct import *m)
{
    unsigned long lines = 0;
    size_t before, more;
    int done;

    if (m->file == stdin)
        tell_waiting(m->o->word[0], "lines of CSV", m->o->quiet);
    progress_begin(&m->progress, "read", stream_length(m->file), m->o->quiet);
    do {
        before = m->bytes.length;
        done = buffer_read(&m->bytes, m->file, before + INPUT_PART);
        more = m->bytes.length - before;
        lines += lines_in(m->bytes.bytes + before, more);
        progress_show(&m->progress, lines, m->bytes.length);
    } while (done == 0 && more == INPUT_PART && !interrupted &&
             m->bytes.length < INPUT_MOST);
    progress_end(&m->progress);
    if (done == 0 || interrupted)
        return DONE;
    complain("%s: cannot be read: %s", m->input, strerror(errno));
    return TROUBLE;
}

static int is_kind(const struct import *m, enum intake_kind kind)
{
    return kind == INTAKE_CSV || m->bytes.length == 0 ||
           (kind == INTAKE_GSI && m->kind == OPTION_GSI) ||
           (kind == INTAKE_XML && m->kind == OPTION_LANDXML);
}

/* The input's own first bytes say what it is, unless an option does. */
static int settle_kind(struct import *m)
{
    enum intake_kind kind = intake_kind(&m->bytes);

    if (kind == INTAKE_OTHER && m->o->encoding == NULL) {
        complain("%s: %s", m->input, intake_words(&m->bytes));
        return TROUBLE;
    }
    if (m->kind != 0 || is_kind(m, kind) ||
        (kind != INTAKE_GSI && kind != INTAKE_XML))
        return DONE;
    m->kind = kind == INTAKE_GSI ? OPTION_GSI : OPTION_LANDXML;
    if (!m->o->quiet)
        complain("%s: read as %s", m->input,
                 kind == INTAKE_GSI ? "GSI-16" : "LandXML");
    return foreign_options(m->o->given | m->kind);
}

/* XML says its own encoding; UTF-16 without a word is refused later. */
static int decode(struct import *m)
{
    if (m->kind == OPTION_LANDXML && m->o->encoding != NULL) {
        complain("%s: LandXML says its encoding itself; leave out --encoding",
                 m->input);
        return TROUBLE;
    }
    if (m->kind == OPTION_LANDXML ||
        (m->o->encoding == NULL && intake_kind(&m->bytes) == INTAKE_WIDE))
        return DONE;
    return intake_decode(&m->bytes, m->o->encoding, m->input) == 0 ? DONE
                                                                   : TROUBLE;
}

/* From here on the input is what was read of it. */
static int use_bytes(struct import *m)
{
    if (m->bytes.length == 0)
        return DONE;
    if (m->file != stdin)
        fclose(m->file);
    m->file = fmemopen(m->bytes.bytes, m->bytes.length, "r");
    return m->file != NULL ? DONE : out_of_memory();
}

/* From the first byte of the input to its last, and into the file. */
static int read_input(struct import *m)
{
    int status;

    catch_interrupts();
    status = read_bytes(m);
    if (status == DONE)
        status = settle_kind(m);
    if (status == DONE)
        status = decode(m);
    if (status == DONE)
        status = use_bytes(m);
    if (status != DONE)
        return status;
    progress_begin(&m->progress, "read", m->bytes.length, m->o->quiet);
    status = m->kind != 0 ? read_foreign(m) : read_csv(m);
    progress_end(&m->progress);
    if (status == DONE && !interrupted)
        status = import_store(m);
    progress_end(&m->progress);
    if (status == DONE && interrupted) {
        complain("%s: import interrupted", m->input);
        status = TROUBLE;
    }
    return status;
}

/* All of the input is one change of the file. */
static int import_points(struct import *m)
{
    int status = open_image(m);
    struct version now;

    if (status != DONE)
        return status;
    status = read_input(m);
    now = version_of(m->image.bytes);
    if (status != DONE)
        delta_append_drop(&m->append, &m->image);
    else if (delta_append_close(&m->append, &m->image) != 0)
        status = TROUBLE;
    if (m->image.committed)
        say_version(m->o->word[0], m->version, now);
    return finish_output(import_report(m, status));
}

/* On a copy of the file. */
static int try_import(struct import *m)
{
    int status = copy_accepted(&m->copy, m->o, &m->key_size);

    if (status == DONE)
        status = look_at_file(m);
    if (status != DONE)
        return status;
    status = read_input(m);
    say_version(m->o->word[0], m->version, version_of(m->copy.bytes));
    if (!m->o->quiet && print_columns(m) != DONE)
        return TROUBLE;
    return finish_output(import_report_dry(m, status));
}

static void import_free(struct import *m)
{
    if (m->file != NULL && m->file != stdin)
        fclose(m->file);
    csv_free(&m->csv);
    buffer_free(&m->arrivals.csv);
    buffer_free(&m->record.bytes);
    buffer_free(&m->heading.bytes);
    buffer_free(&m->apart.bytes);
    buffer_free(&m->bytes);
    import_store_free(m);
    buffer_free(&m->copy);
    buffer_free(&m->key);
    buffer_free(&m->place);
}

int run_import(const struct options *o)
{
    struct import m;
    int status;

    memset(&m, 0, sizeof m);
    m.o = o;
    m.first = 1;
    status = read_options(&m);
    if (status == DONE)
        status = open_input(&m);
    if (status == DONE)
        status = import_is_dry(&m) ? try_import(&m) : import_points(&m);
    import_free(&m);
    return status;
}
