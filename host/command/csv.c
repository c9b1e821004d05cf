/* Records of fields between delimiters, as RFC 4180 has them. */
#include "csv.h"

#include "progress.h"
#include "typed.h"

#include <string.h>

/* ---- bytes in ---- */

static int peek(struct csv *c)
{
    int byte;

    if (c->at != c->end)
        return *c->at;
    if (c->file == NULL)
        return EOF;
    byte = getc(c->file);
    if (byte != EOF)
        ungetc(byte, c->file);
    return byte;
}

static int next(struct csv *c)
{
    int byte = EOF;

    if (c->at != c->end)
        byte = *c->at++;
    else if (c->file != NULL)
        byte = getc(c->file);
    if (byte == '\n')
        c->line++;
    c->taken += byte != EOF;
    return byte;
}

/* Takes the byte if it is the next one. */
static int skip(struct csv *c, int byte)
{
    if (peek(c) != byte)
        return 0;
    next(c);
    return 1;
}

void csv_from_bytes(struct csv *c, const uint8_t *bytes, size_t length)
{
    memset(c, 0, sizeof *c);
    c->at = bytes;
    c->end = length == 0 ? bytes : bytes + length;
    c->delimiter = ',';
    c->line = 1;
}

/* ---- the head of a stream ---- */

/* UTF-16 and UTF-32, by their marks, or by the zero bytes of their first
 * characters, which no name begins with. */
static int is_wide(const struct buffer *head)
{
    const uint8_t *b = head->bytes;

    if (head->length < 2)
        return 0;
    return (b[0] == 0xFF && b[1] == 0xFE) || (b[0] == 0xFE && b[1] == 0xFF) ||
           memchr(b, 0, head->length < 4 ? head->length : 4) != NULL;
}

/* Adds a line to the head. */
static enum csv_answer read_line(struct csv *c)
{
    int byte = 0;

    while (byte != '\n' && (byte = getc(c->file)) != EOF) {
        if (interrupted)
            return CSV_NO_INPUT;
        if (c->head.length >= RECORD_MAX)
            return CSV_TOO_LONG;
        if (buffer_put_byte(&c->head, (uint8_t)byte) != 0)
            return CSV_NO_MEMORY;
        if (c->line == 1 && c->head.length == 4 && is_wide(&c->head))
            return CSV_WIDE;
    }
    if (c->line == 1 && is_wide(&c->head))
        return CSV_WIDE;
    return ferror(c->file) ? CSV_NO_INPUT : CSV_RECORD;
}

static void pass_mark(struct csv *c)
{
    if (c->head.length < 3 || memcmp(c->head.bytes, "\xEF\xBB\xBF", 3) != 0)
        return;
    c->head.length -= 3;
    memmove(c->head.bytes, c->head.bytes + 3, c->head.length);
    c->taken += 3;
}

static int is_empty_line(const struct buffer *line)
{
    for (size_t i = 0; i < line->length; i++)
        if (line->bytes[i] != '\r' && line->bytes[i] != '\n')
            return 0;
    return 1;
}

/* Passes over `skip` lines from the head on, and over empty ones. */
static enum csv_answer pass_lines(struct csv *c, uint64_t skip)
{
    enum csv_answer answer = CSV_RECORD;

    while (answer == CSV_RECORD && c->head.length > 0 &&
           (skip > 0 || is_empty_line(&c->head))) {
        skip -= skip > 0;
        c->line++;
        c->taken += c->head.length;
        c->head.length = 0;
        answer = read_line(c);
    }
    c->at = c->head.bytes;
    c->end = c->head.length == 0 ? c->at : c->at + c->head.length;
    return answer;
}

enum csv_answer csv_from_file(struct csv *c, FILE *file, uint64_t skip)
{
    enum csv_answer answer;

    csv_from_bytes(c, NULL, 0);
    c->file = file;
    answer = read_line(c);
    pass_mark(c);
    return answer == CSV_RECORD ? pass_lines(c, skip) : answer;
}

enum csv_answer csv_pass_line(struct csv *c)
{
    return pass_lines(c, 1);
}

int csv_named_delimiter(const struct csv *c)
{
    size_t length = c->head.length;

    while (length > 0 && (c->head.bytes[length - 1] == '\n' ||
                          c->head.bytes[length - 1] == '\r'))
        length--;
    return length == 5 && same_word(c->head.bytes, 4, "sep=")
        ? c->head.bytes[4] : 0;
}

void csv_free(struct csv *c)
{
    buffer_free(&c->head);
}

/* ---- records in ---- */

static enum csv_answer put(struct record *r, int byte)
{
    if (interrupted)
        return CSV_NO_INPUT;
    if (r->bytes.length >= RECORD_MAX)
        return CSV_TOO_LONG;
    if (r->fields >= FIELDS_MAX)
        return CSV_RECORD;
    return buffer_put_byte(&r->bytes, (uint8_t)byte) == 0 ? CSV_RECORD
                                                          : CSV_NO_MEMORY;
}

static void end_field(struct record *r)
{
    if (r->fields < FIELDS_MAX)
        r->ends[r->fields] = r->bytes.length;
    r->fields++;
}

/* Does a line end here? Takes its end. A carriage return alone is none. */
static int at_line_end(struct csv *c, int byte)
{
    return byte == '\n' || (byte == '\r' && skip(c, '\n'));
}

static enum csv_answer read_quoted(struct csv *c, struct record *r)
{
    enum csv_answer answer = CSV_RECORD;

    while (answer == CSV_RECORD) {
        int byte = next(c);

        if (byte == EOF)
            return CSV_OPEN_QUOTE;
        if (byte == '"' && !skip(c, '"'))
            return CSV_RECORD;
        answer = put(r, byte);
    }
    return answer;
}

/* Blanks as a delimiter stand in any number, also before a line and at
 * its end. */
static void skip_blanks(struct csv *c)
{
    while (c->delimiter == ' ' && (peek(c) == ' ' || peek(c) == '\t'))
        next(c);
}

/* Does the line end after the delimiter that was read? */
static int ends_here(struct csv *c)
{
    int byte = peek(c);

    return c->delimiter == ' ' &&
           (byte == '\n' || byte == '\r' || byte == EOF);
}

/* Reads one field and what ends it; *more says whether it was a delimiter. */
static enum csv_answer read_field(struct csv *c, struct record *r, int *more)
{
    int quoted = skip(c, '"');
    enum csv_answer answer = quoted ? read_quoted(c, r) : CSV_RECORD;

    while (answer == CSV_RECORD) {
        int byte = next(c);

        *more = byte == c->delimiter ||
                (byte == '\t' && c->delimiter == ' ');
        if (*more || byte == EOF || at_line_end(c, byte)) {
            end_field(r);
            skip_blanks(c);
            *more = *more && !ends_here(c);
            return CSV_RECORD;
        }
        answer = quoted ? CSV_LATE_TEXT : put(r, byte);
    }
    return answer;
}

/* Passes over lines without a character; 0 at the end of all. */
static int find_record(struct csv *c)
{
    int byte;

    skip_blanks(c);
    byte = peek(c);
    while (byte == '\n' || byte == '\r') {
        next(c);
        skip_blanks(c);
        byte = peek(c);
    }
    return byte != EOF;
}

enum csv_answer csv_read(struct csv *c, struct record *r)
{
    enum csv_answer answer = CSV_RECORD;
    int more = 1;

    r->bytes.length = 0;
    r->fields = 0;
    if (!find_record(c))
        more = 0;
    r->line = c->line;
    while (more && answer == CSV_RECORD)
        answer = read_field(c, r, &more);
    if (c->file != NULL && ferror(c->file))
        return CSV_NO_INPUT;
    return answer == CSV_RECORD && r->fields == 0 ? CSV_END : answer;
}

enum csv_answer csv_look(const struct csv *c, struct record *r, int delimiter)
{
    struct csv look;

    csv_from_bytes(&look, c->at, (size_t)(c->end - c->at));
    look.delimiter = delimiter;
    return csv_read(&look, r);
}

const char *csv_words(enum csv_answer answer)
{
    switch (answer) {
    case CSV_OPEN_QUOTE:
        return "a quoted field has no closing quote";
    case CSV_LATE_TEXT:
        return "there is text behind a closing quote";
    case CSV_TOO_LONG:
        return "the record is longer than any point's text may be";
    case CSV_WIDE:
        return "this is UTF-16 or no text; save it as UTF-8 (spreadsheets "
               "call it CSV UTF-8), or say --encoding utf-16";
    case CSV_NO_MEMORY:
        return "not enough memory";
    default:
        return "cannot be read";
    }
}

/* ---- fields ---- */

struct piece record_field(const struct record *r, size_t field)
{
    size_t start = field == 0 ? 0 : r->ends[field - 1];
    struct piece p = { (const uint8_t *)"", r->ends[field] - start };

    if (r->bytes.bytes != NULL)
        p.bytes = r->bytes.bytes + start;
    return p;
}

/* The bytes of a blank, a tab or a no-break space at the beginning, or at the
 * end; 0 if there is none. */
static size_t blank_first(struct piece p)
{
    if (p.length >= 2 && p.bytes[0] == 0xC2 && p.bytes[1] == 0xA0)
        return 2;
    return p.length >= 1 && (p.bytes[0] == ' ' || p.bytes[0] == '\t');
}

static size_t blank_last(struct piece p)
{
    const uint8_t *end = p.bytes + p.length;

    if (p.length >= 2 && end[-2] == 0xC2 && end[-1] == 0xA0)
        return 2;
    return p.length >= 1 && (end[-1] == ' ' || end[-1] == '\t');
}

struct piece piece_trim(struct piece p)
{
    size_t blank;

    while ((blank = blank_last(p)) > 0)
        p.length -= blank;
    while ((blank = blank_first(p)) > 0) {
        p.bytes += blank;
        p.length -= blank;
    }
    return p;
}

int same_piece(struct piece a, struct piece b)
{
    return a.length == b.length &&
           (a.length == 0 || memcmp(a.bytes, b.bytes, a.length) == 0);
}

static int needs_quotes(struct piece field)
{
    for (size_t i = 0; i < field.length; i++)
        if (field.bytes[i] == ',' || field.bytes[i] == '"' ||
            field.bytes[i] == '\n' || field.bytes[i] == '\r')
            return 1;
    return 0;
}

int csv_put(struct buffer *to, struct piece field)
{
    int done = 0;

    if (!needs_quotes(field))
        return buffer_put(to, field.bytes, field.length);
    done |= buffer_put_byte(to, '"');
    for (size_t i = 0; i < field.length; i++) {
        if (field.bytes[i] == '"')
            done |= buffer_put_byte(to, '"');
        done |= buffer_put_byte(to, field.bytes[i]);
    }
    done |= buffer_put_byte(to, '"');
    return done == 0 ? 0 : -1;
}
