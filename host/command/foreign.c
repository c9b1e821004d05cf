/* What the formats of other programs have in common. */
#include "foreign.h"

#include "selection.h"
#include "command_limits.h"

#include <errno.h>
#include <string.h>

void say_loss(const char *file, size_t count, const char *what,
              const char *words)
{
    if (count > 0)
        complain("%s: %lu %s%s %s", file, (unsigned long)count, what,
                 count == 1 ? "" : "s", words);
}

/* ---- in ---- */

/* A name as import reads it: there a backslash is written as \x5C, so that one
 * of another program stays what it is. */
static int put_name(struct buffer *csv, struct piece name)
{
    struct buffer typed = { NULL, 0, 0 };
    struct piece piece;
    int done = 0;

    for (size_t i = 0; i < name.length; i++)
        done |= name.bytes[i] == '\\' ? put_escape(&typed, name.bytes[i])
                                      : buffer_put_byte(&typed, name.bytes[i]);
    piece.bytes = typed.bytes;
    piece.length = typed.length;
    done |= csv_put(csv, piece);
    buffer_free(&typed);
    return done;
}

int arrive(struct arrivals *a, unsigned long line, struct piece name,
           const struct piece fields[POINT_FIELDS])
{
    int done = 0;

    for (; a->line < line; a->line++)
        done |= buffer_put_byte(&a->csv, '\n');
    done |= put_name(&a->csv, name);
    for (int i = 0; i < POINT_FIELDS; i++) {
        done |= buffer_put_byte(&a->csv, ',');
        done |= csv_put(&a->csv, fields[i]);
    }
    done |= buffer_put_byte(&a->csv, '\n');
    a->line++;
    for (size_t i = 0; i < fields[NOTE].length; i++)
        a->line += fields[NOTE].bytes[i] == '\n';
    return done;
}

int foreign_options(uint64_t given)
{
    const uint64_t others = OPTION_COLUMNS | OPTION_DELIMITER |
                            OPTION_DECIMAL | OPTION_SKIP | OPTION_ANY_TEXT;
    const uint64_t both = OPTION_GSI | OPTION_LANDXML;

    if ((given & both) == both || (given & both && given & others)) {
        complain("import: --gsi or --landxml, without options for CSV");
        return TROUBLE;
    }
    return DONE;
}

int foreign_read(struct arrivals *a, FILE *from, uint64_t kind, int quiet)
{
    struct buffer bytes = { NULL, 0, 0 };
    struct piece file;
    int status;

    a->line = 1;
    if (buffer_read(&bytes, from, (size_t)FOREIGN_MOST + 1) != 0) {
        complain("%s: cannot be read: %s", a->input, strerror(errno));
        buffer_free(&bytes);
        return TROUBLE;
    }
    if (bytes.length > FOREIGN_MOST) {
        complain("%s: has more than %lu bytes; import it in parts", a->input,
                 (unsigned long)FOREIGN_MOST);
        buffer_free(&bytes);
        return TROUBLE;
    }
    file.bytes = bytes.bytes != NULL ? bytes.bytes : (const uint8_t *)"";
    file.length = bytes.length;
    status = (kind == OPTION_GSI ? gsi_read : landxml_read)(a, file, quiet);
    buffer_free(&bytes);
    return status;
}

/* ---- out ---- */

/* Which of three is told by the status: trouble, a point that is damaged or not
 * there, and then what was left out or cut. */
static int worst_of(int a, int b, int c)
{
    if (a == TROUBLE || b == TROUBLE || c == TROUBLE)
        return TROUBLE;
    if (a == REFUSED || b == REFUSED || c == REFUSED)
        return REFUSED;
    return a == PARTIAL || b == PARTIAL || c == PARTIAL ? PARTIAL : DONE;
}

/* Has it a point that no other format has room for? */
static int is_short(const struct site *s)
{
    return s->kinds[SPOT_BARE] + s->kinds[SPOT_EMPTY] + s->kinds[SPOT_OTHER]
           > 0;
}

/* What is left out for want of coordinates is told; GSI alone has room for a
 * height without a place. */
static int write_site(struct site *s, const struct options *o, int by_name)
{
    const char *level = o->given & OPTION_GSI ? NULL
                                              : "a height alone has no place "
                                                "there";
    int missing = site_select(s, o, 1), left_out, status;

    if (missing == TROUBLE)
        return missing;
    left_out = site_say_left_out(s, o->word[0], level);
    if (left_out == DONE && is_short(s))
        left_out = PARTIAL;
    if (by_name)
        site_sort(s);
    if (o->given & OPTION_GSI)
        status = gsi_write(s, o);
    else if (o->given & OPTION_LANDXML)
        status = landxml_write(s, o);
    else
        status = dxf_write(s, o);
    return finish_output(worst_of(status, left_out, missing));
}

/* Is more than one of these bits set? */
static int several(uint64_t given)
{
    given &= OPTION_FOREIGN | OPTION_CRLF | OPTION_SPREADSHEET;
    return (given & (given - 1)) != 0;
}

int export_foreign(const struct options *o)
{
    struct site s;
    int by_name, status;

    if (order_read(o, 1, &by_name) != DONE)
        return TROUBLE;
    if (several(o->given)) {
        complain("export: --gsi, --landxml or --dxf, one of them, and without "
                 "options for CSV");
        return TROUBLE;
    }
    status = site_open(&s, o->word[0], (unsigned)o->wait);
    if (status == DONE)
        status = write_site(&s, o, by_name);
    site_close(&s);
    return status;
}
