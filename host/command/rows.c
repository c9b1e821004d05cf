/* A point as a row: of a table, tab-separated, or as JSON.
 *
 * Tab-separated fields hold \t, \n, \r and \\ for tab, line feed, carriage
 * return and backslash, and the last one \N where there is no text. JSON is
 * RFC 8259's, one object a line. */
#include "rows.h"

#include "complain.h"
#include "terminal.h"
#include "utf8.h"

#include <string.h>

/* ---- tab-separated ---- */

static void put_tsv(struct piece p)
{
    static const char special[] = "\t\n\r\\", letters[] = "tnr\\";
    size_t done = 0;

    for (size_t i = 0; i < p.length; i++) {
        const char *found = p.bytes[i] == 0 ? NULL
                                            : strchr(special, p.bytes[i]);

        if (found == NULL)
            continue;
        put_bytes(p.bytes + done, i - done);
        putchar('\\');
        putchar(letters[found - special]);
        done = i + 1;
    }
    if (p.length > done)
        put_bytes(p.bytes + done, p.length - done);
}

static void put_tsv_row(struct rows *r, const struct spot *s)
{
    struct piece fields[POINT_FIELDS];

    printf("%s\t%lu", (const char *)r->name.bytes, (unsigned long)s->slot);
    if (has_coordinates(s) && point_take(&r->record, s->text, fields)) {
        for (int i = 0; i < POINT_FIELDS; i++) {
            putchar('\t');
            put_tsv(fields[i]);
        }
    } else {
        fputs(s->kind == SPOT_BARE ? "\t\t\t\t\\N" : "\t\t\t\t", stdout);
        put_tsv(s->text);
    }
    if (r->counted)
        printf("\t%lu", (unsigned long)r->slots_read);
    putchar('\n');
}

/* ---- JSON ---- */

/* What does not print by its number, which may take two. */
static void put_json_number_of(uint32_t c)
{
    if (c > 0xFFFF) {
        printf("\\u%04lx", (unsigned long)(0xD800 + ((c - 0x10000) >> 10)));
        c = 0xDC00 + ((c - 0x10000) & 0x3FF);
    }
    printf("\\u%04lx", (unsigned long)c);
}

static void put_json_character(const uint8_t *at, size_t length, uint32_t c)
{
    if (length == 0)
        fputs("\\ufffd", stdout);
    else if (*at == '"' || *at == '\\')
        printf("\\%c", *at);
    else if (utf8_prints(at, length) == 0)
        put_json_number_of(c);
    else
        fwrite(at, 1, length, stdout);
}

/* A byte that is no UTF-8 becomes U+FFFD. */
void json_put(struct piece p)
{
    putchar('"');
    while (p.length > 0) {
        uint32_t c;
        size_t used = utf8_read(p.bytes, p.length, &c);

        put_json_character(p.bytes, used, c);
        used = used > 0 ? used : 1;
        p.bytes += used;
        p.length -= used;
    }
    putchar('"');
}

/* A coordinate as JSON writes numbers: digits on both sides of the point, and
 * no plus or zeros in front. */
static void put_json_number(struct piece p)
{
    const uint8_t *at, *end;

    p = piece_trim(p);
    at = p.bytes;
    end = at + p.length;
    at += *at == '+';
    if (*at == '-')
        putchar(*at++);
    while (at < end && *at == '0')
        at++;
    if (at == end || *at == '.')
        putchar('0');
    for (; at < end; at++)
        if (*at != '.' || at + 1 < end)
            putchar(*at);
}

static void put_json_fields(const struct piece fields[POINT_FIELDS])
{
    for (int i = 0; i < POINT_FIELDS; i++) {
        if (fields[i].length == 0 ||
            (i != NOTE && piece_trim(fields[i]).length == 0))
            continue;
        printf(",\"%s\":", point_words[i]);
        if (i == NOTE)
            json_put(fields[i]);
        else
            put_json_number(fields[i]);
    }
}

static void put_hex(struct piece p)
{
    fputs(",\"hex\":\"", stdout);
    for (size_t i = 0; i < p.length; i++)
        printf("%02x", p.bytes[i]);
    putchar('"');
}

static void put_json_row(struct rows *r, const struct spot *s)
{
    struct piece name = { r->name.bytes, r->name.length - 1 };
    struct piece fields[POINT_FIELDS];

    fputs("{\"name\":", stdout);
    json_put(name);
    printf(",\"slot\":%lu", (unsigned long)s->slot);
    if (has_coordinates(s) && point_take(&r->record, s->text, fields)) {
        put_json_fields(fields);
    } else if (s->kind == SPOT_DAMAGED) {
        fputs(",\"damaged\":true", stdout);
    } else if (s->kind != SPOT_BARE) {
        fputs(",\"text\":", stdout);
        json_put(s->text);
    }
    if (!utf8_whole(s->text.bytes, s->text.length))
        put_hex(s->text);
    if (r->counted)
        printf(",\"slots_read\":%lu", (unsigned long)r->slots_read);
    fputs("}\n", stdout);
}

/* ---- tables ---- */

static void put_long_row(const struct rows *r, const struct spot *s)
{
    if (s->kind == SPOT_DAMAGED || s->kind == SPOT_BARE)
        printf("%5lu %8s ", (unsigned long)s->slot,
               s->kind == SPOT_BARE ? "-" : "bad");
    else
        printf("%5lu %8lu ", (unsigned long)s->slot,
               (unsigned long)s->text.length);
    puts((const char *)r->name.bytes);
}

static void put_text_row(const struct rows *r, const struct spot *s)
{
    printf("%s\t", (const char *)r->name.bytes);
    put_bytes(s->text.bytes, s->text.length);
    if (s->text.length == 0 || s->text.bytes[s->text.length - 1] != '\n')
        putchar('\n');
}

/* ---- all of them ---- */

void rows_begin(const struct rows *r)
{
    if (r->form == ROW_TSV)
        printf("name\tslot\teasting\tnorthing\theight\tnote%s\n",
               r->counted ? "\tslots_read" : "");
}

int rows_put(struct rows *r, const struct spot *s)
{
    if (spot_show(&r->name, s) != 0)
        return out_of_memory();
    switch (r->form) {
    case ROW_NAME:
        puts((const char *)r->name.bytes);
        break;
    case ROW_LONG:
        put_long_row(r, s);
        break;
    case ROW_TEXT:
        put_text_row(r, s);
        break;
    case ROW_TSV:
        put_tsv_row(r, s);
        break;
    case ROW_JSON:
        put_json_row(r, s);
        break;
    }
    return DONE;
}

void rows_free(struct rows *r)
{
    buffer_free(&r->name);
    buffer_free(&r->record.bytes);
}
