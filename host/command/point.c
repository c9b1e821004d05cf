/* A point's text: easting,northing,height,note, as a record of CSV. */
#include "point.h"

#include "command_limits.h"
#include "complain.h"

#include <stdlib.h>
#include <string.h>

const char *const point_words[POINT_FIELDS] = { "easting", "northing",
                                                "height", "note" };

/* ---- numbers ---- */

int is_number(struct piece p, int decimal)
{
    size_t digits = 0, signs = 0;

    for (size_t i = 0; i < p.length; i++) {
        int c = p.bytes[i];

        if (c >= '0' && c <= '9')
            digits++;
        else if (c == decimal)
            signs++;
        else if (i != 0 || (c != '-' && c != '+'))
            return 0;
    }
    return digits > 0 && signs <= 1;
}

/* A number, e or E, and a whole number, as spreadsheets write long ones. */
static int has_exponent(struct piece p)
{
    for (size_t i = 0; i < p.length; i++)
        if (p.bytes[i] == 'e' || p.bytes[i] == 'E') {
            const struct piece front = { p.bytes, i };
            const struct piece back = { p.bytes + i + 1, p.length - i - 1 };

            return (is_number(front, '.') || is_number(front, ',')) &&
                   is_number(back, -1);
        }
    return 0;
}

static enum fault number_fault(struct piece p, int decimal)
{
    if (p.length == 0 || is_number(p, decimal))
        return NO_FAULT;
    if (is_number(p, decimal == ',' ? '.' : ','))
        return FAULT_COMMA;
    return has_exponent(p) ? FAULT_EXPONENT : FAULT_NUMBER;
}

enum fault point_fault(const struct piece fields[POINT_FIELDS], int decimal,
                       int *field)
{
    for (*field = EASTING; *field <= HEIGHT; (*field)++) {
        enum fault fault = number_fault(fields[*field], decimal);

        if (fault != NO_FAULT)
            return fault;
    }
    *field = fields[EASTING].length == 0 ? EASTING : NORTHING;
    if ((fields[EASTING].length == 0) != (fields[NORTHING].length == 0))
        return FAULT_HALF;
    return NO_FAULT;
}

static const char *fault_words(enum fault fault, struct piece value)
{
    if (fault == FAULT_EXPONENT)
        return "has an exponent, as spreadsheets write numbers that they cut "
               "short; write all of its digits";
    if (fault == FAULT_COMMA)
        return memchr(value.bytes, ',', value.length) != NULL
            ? "has a decimal comma and not a point"
            : "has a decimal point and not a comma";
    return "is not a number";
}

int complain_of_fault(const char *place, enum fault fault, int field,
                      struct piece value)
{
    int shown = value.length > 60 ? 60 : (int)value.length;

    if (fault == FAULT_HALF)
        complain("%s: there is no %s beside the %s", place, point_words[field],
                 point_words[field == EASTING ? NORTHING : EASTING]);
    else
        complain("%s: the %s %.*s %s", place, point_words[field], shown,
                 (const char *)value.bytes, fault_words(fault, value));
    return TROUBLE;
}

/* ---- texts ---- */

int point_put(struct buffer *to, const struct piece fields[POINT_FIELDS])
{
    size_t start = to->length;
    size_t filled = 0;
    int done = 0;

    for (int i = 0; i < POINT_FIELDS; i++) {
        if (i > 0)
            done |= buffer_put_byte(to, ',');
        done |= csv_put(to, fields[i]);
        filled += fields[i].length;
    }
    if (filled == 0)
        to->length = start;
    return done;
}

int point_take(struct record *r, struct piece text,
               struct piece fields[POINT_FIELDS])
{
    struct csv c;

    if (text.length > FIELDS_TEXT_MOST)
        return 0;
    csv_from_bytes(&c, text.bytes, text.length);
    if (csv_read(&c, r) != CSV_RECORD || r->fields != POINT_FIELDS ||
        c.at != c.end)
        return 0;
    for (int i = 0; i < POINT_FIELDS; i++)
        fields[i] = record_field(r, (size_t)i);
    return 1;
}

int point_fields(struct record *r, struct piece text,
                 struct piece fields[POINT_FIELDS])
{
    int field;

    if (!point_take(r, text, fields))
        return 0;
    for (int i = EASTING; i <= HEIGHT; i++)
        fields[i] = piece_trim(fields[i]);
    return point_fault(fields, '.', &field) == NO_FAULT;
}

double point_number(struct piece p)
{
    char digits[64];
    size_t length = p.length < sizeof digits ? p.length : sizeof digits - 1;

    memcpy(digits, p.bytes, length);
    digits[length] = '\0';
    return strtod(digits, NULL);
}

int point_place(struct record *r, struct piece text, double *easting,
                double *northing)
{
    struct piece fields[POINT_FIELDS];

    if (!point_take(r, text, fields))
        return 0;
    fields[EASTING] = piece_trim(fields[EASTING]);
    fields[NORTHING] = piece_trim(fields[NORTHING]);
    if (!is_number(fields[EASTING], '.') || !is_number(fields[NORTHING], '.'))
        return 0;
    *easting = point_number(fields[EASTING]);
    *northing = point_number(fields[NORTHING]);
    return 1;
}
