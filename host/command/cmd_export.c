/* export: points as lines of a CSV file that import reads.
 *
 * A text that these fields alone would not give back stands, byte for byte, in
 * a column of its own, and one more column says yes where the text is empty;
 * without it, empty fields are no text. The file has these columns only if a
 * point needs them.
 *
 * A spreadsheet takes a cell that begins with = + - @ for a formula, and runs
 * it. With --spreadsheet such a name, note or text gets an apostrophe in front;
 * it does not come back as it was. */
#include "commands.h"

#include "csv_columns.h"
#include "foreign.h"
#include "progress.h"
#include "selection.h"
#include "terminal.h"

#include <string.h>
#include <unistd.h>

struct export {
    const char *file;
    const char *line_end;
    int texts;             /* is there a column for texts? */
    int empties;           /* is there one for empty texts? */
    int spreadsheet;       /* nothing may be taken for a formula */
    struct buffer name;
    struct buffer line;
    struct buffer again;   /* a text that is put together again */
    struct record record;
};

/* ---- which columns a text needs ---- */

/* Does import take these four fields? Blanks around coordinates do not
 * count. */
static int are_fields(struct export *e, struct piece text,
                      struct piece fields[POINT_FIELDS])
{
    int field;

    if (!point_take(&e->record, text, fields))
        return 0;
    for (int i = EASTING; i <= HEIGHT; i++)
        fields[i] = piece_trim(fields[i]);
    return point_fault(fields, '.', &field) == NO_FAULT;
}

/* Would they come back as this text? -1 for no memory. */
static int comes_back(struct export *e, struct piece text,
                      const struct piece fields[POINT_FIELDS])
{
    struct piece again;

    e->again.length = 0;
    if (point_put(&e->again, fields) != 0)
        return -1;
    again.bytes = e->again.bytes;
    again.length = e->again.length;
    return same_piece(text, again);
}

static int needs_text(struct export *e, struct piece text)
{
    struct piece fields[POINT_FIELDS];

    if (text.length == 0)
        return 0;
    return !are_fields(e, text, fields) || comes_back(e, text, fields) != 1;
}

static void find_columns(struct export *e, const struct site *s)
{
    for (size_t i = 0; i < s->count && !(e->texts && e->empties); i++) {
        const struct spot *spot = &s->spots[i];

        if (spot->kind == SPOT_DAMAGED)
            continue;
        e->texts |= needs_text(e, spot->text);
        e->empties |= spot->kind == SPOT_EMPTY;
    }
}

/* ---- a line ---- */

/* A cell of words, as it is or harmless. */
static int put_words(struct export *e, struct piece p)
{
    struct buffer cell = { NULL, 0, 0 };
    int done;

    if (!e->spreadsheet || p.length == 0 ||
        memchr("=+-@\t\r", p.bytes[0], 6) == NULL)
        return csv_put(&e->line, p);
    done = buffer_put_byte(&cell, '\'') | buffer_put(&cell, p.bytes, p.length);
    if (done == 0) {
        p.bytes = cell.bytes;
        p.length = cell.length;
        done = csv_put(&e->line, p);
    }
    buffer_free(&cell);
    return done;
}

static int put_fields(struct export *e, struct piece text, int empty)
{
    const struct piece none = { (const uint8_t *)"", 0 };
    const struct piece yes = { (const uint8_t *)"yes", 3 };
    struct piece fields[POINT_FIELDS] = { none, none, none, none };
    int back = 1;
    int done = 0;

    if (text.length > 0 && !are_fields(e, text, fields)) {
        for (int i = 0; i < POINT_FIELDS; i++)
            fields[i] = none;
        back = 0;
    } else if (text.length > 0)
        back = comes_back(e, text, fields);
    for (int i = 0; i < POINT_FIELDS; i++)
        done |= buffer_put_byte(&e->line, ',') |
                (i == NOTE ? put_words(e, fields[i])
                           : csv_put(&e->line, fields[i]));
    if (e->texts)
        done |= buffer_put_byte(&e->line, ',') |
                put_words(e, back ? none : text);
    if (e->empties)
        done |= buffer_put_byte(&e->line, ',') |
                csv_put(&e->line, empty ? yes : none);
    return back < 0 ? -1 : done;
}

/* One line; REFUSED when the point is damaged. */
static int put_line(struct export *e, const struct spot *s)
{
    struct piece name;

    e->name.length = 0;
    e->line.length = 0;
    if (name_show(&e->name, s->name, s->name_length) != 0)
        return out_of_memory();
    if (s->kind == SPOT_DAMAGED)
        return leave_out(e->file, &e->name, s->number);
    name.bytes = e->name.bytes;
    name.length = e->name.length;
    if (put_words(e, name) != 0 ||
        put_fields(e, s->text, s->kind == SPOT_EMPTY) != 0 ||
        buffer_put(&e->line, e->line_end, strlen(e->line_end)) != 0)
        return out_of_memory();
    put_bytes(e->line.bytes, e->line.length);
    return DONE;
}

static int export_points(struct export *e, const struct options *o,
                         const struct site *s)
{
    struct progress progress;
    int worst = DONE;

    progress_begin(&progress, "written", s->count,
                   o->quiet || isatty(STDOUT_FILENO));
    printf("name,easting,northing,height,note%s%s%s", e->texts ? ",text" : "",
           e->empties ? ",empty" : "", e->line_end);
    for (size_t i = 0; i < s->count && worst != TROUBLE && !ferror(stdout);
         i++) {
        int status = put_line(e, &s->spots[i]);

        worst = status > worst ? status : worst;
        progress_show(&progress, i + 1, i + 1);
    }
    progress_end(&progress);
    return worst;
}

static int export_csv(struct export *e, const struct options *o,
                      struct site *s, int by_name)
{
    int missing = site_select(s, o, 1), status;

    if (missing == TROUBLE)
        return missing;
    if (by_name)
        site_sort(s);
    find_columns(e, s);
    status = export_points(e, o, s);
    return finish_output(status > missing ? status : missing);
}

int run_export(const struct options *o)
{
    struct export e;
    struct site s;
    int by_name, status;

    if (o->given & OPTION_FOREIGN)
        return export_foreign(o);
    if (order_read(o, 0, &by_name) != DONE)
        return TROUBLE;
    memset(&e, 0, sizeof e);
    e.file = o->word[0];
    e.line_end = o->given & OPTION_CRLF ? "\r\n" : "\n";
    e.spreadsheet = (o->given & OPTION_SPREADSHEET) != 0;
    status = site_open(&s, o->word[0], (unsigned)o->wait);
    if (status == DONE)
        status = export_csv(&e, o, &s, by_name);
    buffer_free(&e.name);
    buffer_free(&e.line);
    buffer_free(&e.again);
    buffer_free(&e.record.bytes);
    site_close(&s);
    return status;
}
