/* store-records and read-records: readings as records of W bytes, which the
 * library keeps by column. */
#include "commands.h"

#include "bhtf.h"
#include "command_limits.h"
#include "edit.h"
#include "record_fields.h"

#include <errno.h>
#include <stdlib.h>
#include <string.h>

/* ---- what is stored ---- */

static int open_input(FILE **from, const struct options *o)
{
    *from = stdin;
    if (o->words == 3 && strcmp(o->word[2], "-") != 0)
        *from = fopen(o->word[2], "rb");
    if (*from != NULL)
        return DONE;
    complain("%s: cannot be opened: %s", o->word[2], strerror(errno));
    return TROUBLE;
}

static int read_raw(struct buffer *records, FILE *from)
{
    if (buffer_read(records, from, (size_t)TEXT_MOST + 1) == 0)
        return DONE;
    complain("the records cannot be read: %s", strerror(errno));
    return TROUBLE;
}

static int put_line(struct buffer *records, const struct fields *f,
                    const struct record *line)
{
    uint8_t bytes[RECORD_MOST];

    if (line->fields != f->count) {
        complain("line %lu: %lu fields where --fields names %lu", line->line,
                 (unsigned long)line->fields, (unsigned long)f->count);
        return TROUBLE;
    }
    for (size_t i = 0; i < f->count; i++)
        if (field_put(f, i, record_field(line, i), bytes) != 0) {
            complain("line %lu: field %lu is not a number of its kind",
                     line->line, (unsigned long)i + 1);
            return TROUBLE;
        }
    if (records->length > TEXT_MOST) {
        complain("line %lu: more records than a text can hold", line->line);
        return TROUBLE;
    }
    return buffer_put(records, bytes, f->width) == 0 ? DONE : out_of_memory();
}

static int read_csv(struct buffer *records, FILE *from, const struct fields *f)
{
    enum csv_answer answer;
    struct record line;
    struct csv csv;
    int status = DONE;

    memset(&line, 0, sizeof line);
    answer = csv_from_file(&csv, from, 0);
    csv.delimiter = ',';
    while (status == DONE && answer == CSV_RECORD &&
           (answer = csv_read(&csv, &line)) == CSV_RECORD)
        status = put_line(records, f, &line);
    if (status == DONE && answer != CSV_END) {
        complain("line %lu: %s", csv.line, csv_words(answer));
        status = TROUBLE;
    }
    buffer_free(&line.bytes);
    csv_free(&csv);
    return status;
}

/* The records of the input, and their width. */
static int read_input(struct buffer *records, uint32_t *width,
                      const struct options *o)
{
    struct fields f;
    FILE *from;
    int status;

    if (!(o->given & OPTION_CSV) == !(o->given & OPTION_WIDTH) ||
        !(o->given & OPTION_CSV) != !(o->given & OPTION_FIELDS)) {
        complain("store-records: --width for raw records, or --csv with "
                 "--fields");
        return TROUBLE;
    }
    if ((o->given & OPTION_FIELDS) &&
        fields_read(&f, o->fields, (o->given & OPTION_LITTLE) != 0) != 0)
        return TROUBLE;
    *width = o->given & OPTION_FIELDS ? f.width : (uint32_t)o->width;
    status = open_input(&from, o);
    if (status != DONE)
        return status;
    status = o->given & OPTION_CSV ? read_csv(records, from, &f)
                                   : read_raw(records, from);
    if (from != stdin)
        fclose(from);
    return status;
}

static int store_records(struct edit *e, const struct options *o,
                         const struct buffer *records, uint32_t width)
{
    uint8_t *image = image_writable(&e->image);
    uint32_t number;

    if (key_from(&e->key, (const uint8_t *)o->word[1], strlen(o->word[1]),
                 e->key_size) != 0)
        return out_of_memory();
    number = bhtf_store_columns(image, e->image.length, e->key.bytes,
                                e->key.length, records->bytes, records->length,
                                width);
    if (number == BHTF_BAD_RECORDS)
        complain("%s: refused (19): %lu bytes are no records of %lu, from 1 to "
                 "64", o->word[1], (unsigned long)records->length,
                 (unsigned long)width);
    else if (number != BHTF_ACCEPTED)
        return refuse_point(o->word[0], o->word[1], number, e->key_size, 0);
    return number == BHTF_ACCEPTED ? DONE : REFUSED;
}

int run_store_records(const struct options *o)
{
    struct buffer records = { NULL, 0, 0 };
    struct edit e;
    uint32_t width;
    int status = read_input(&records, &width, o);

    if (status == DONE)
        status = edit_open(&e, o);
    if (status == DONE)
        status = edit_close(&e, store_records(&e, o, &records, width));
    if (status == DONE && !o->quiet)
        printf("%lu records of %lu bytes stored\n",
               (unsigned long)(records.length / width), (unsigned long)width);
    buffer_free(&records);
    return status == DONE ? finish_output(DONE) : status;
}

/* ---- what is read ---- */

struct reading {
    const struct options *o;
    struct buffer copy;
    const uint8_t *stored;  /* the width, and after it the columns */
    uint32_t width;
    size_t count;           /* of records */
    struct fields fields;
};

/* The stored text, which the library takes for records. */
static int find_stored(struct reading *r)
{
    struct buffer key = { NULL, 0, 0 };
    uint32_t number, key_size, offset, length, bytes;
    int status = copy_accepted(&r->copy, r->o, &key_size);

    if (status != DONE)
        return status;
    if (key_from(&key, (const uint8_t *)r->o->word[1], strlen(r->o->word[1]),
                 key_size) != 0)
        return out_of_memory();
    number = bhtf_lookup(r->copy.bytes, r->copy.length, key.bytes, key.length,
                         &offset, &length);
    if (number == BHTF_ACCEPTED) {
        r->stored = r->copy.bytes + offset;
        r->width = length > 0 ? r->stored[0] : 0;
        /* With no room it is refused, unless there is no record. */
        number = bhtf_read_columns(r->copy.bytes, r->copy.length, key.bytes,
                                   key.length, NULL, 0, &bytes);
        if (number == BHTF_BAD_RECORDS && r->width >= 1 && r->width <= 64 &&
            length > 1 && (length - 1) % r->width == 0)
            number = BHTF_ACCEPTED;
        r->count = number == BHTF_ACCEPTED ? (length - 1) / r->width : 0;
    }
    buffer_free(&key);
    if (number == BHTF_BAD_RECORDS) {
        complain("%s: refused (19): the text is no records by column",
                 r->o->word[1]);
        return REFUSED;
    }
    return number == BHTF_ACCEPTED
           ? DONE : refuse_point(r->o->word[0], r->o->word[1], number, key_size,
                                 0);
}

/* One record, from the columns. */
static void take_record(const struct reading *r, size_t i, uint8_t *record)
{
    for (uint32_t k = 0; k < r->width; k++)
        record[k] = r->stored[1 + k * r->count + i];
}

/* The bytes of one field of a record, from its columns alone. */
static void take_field(const struct reading *r, size_t i,
                       const struct field *d, uint8_t *record)
{
    for (unsigned k = d->at; k < d->at + d->size; k++)
        record[k] = r->stored[1 + k * r->count + i];
}

static int put_column(const struct reading *r, size_t column)
{
    uint8_t record[RECORD_MOST];

    if (column < 1 || column > (r->o->given & OPTION_FIELDS ? r->fields.count
                                                            : r->width)) {
        complain("--column: there are %lu of them",
                 (unsigned long)(r->o->given & OPTION_FIELDS ? r->fields.count
                                                             : r->width));
        return TROUBLE;
    }
    if (!(r->o->given & OPTION_FIELDS)) {
        fwrite(r->stored + 1 + (column - 1) * r->count, 1, r->count, stdout);
        return finish_output(DONE);
    }
    for (size_t i = 0; i < r->count; i++) {
        take_field(r, i, &r->fields.of[column - 1], record);
        field_print(&r->fields, column - 1, record);
        putchar('\n');
    }
    return finish_output(DONE);
}

static int put_csv(const struct reading *r)
{
    uint8_t record[RECORD_MOST];

    for (size_t i = 0; i < r->count && !ferror(stdout); i++) {
        take_record(r, i, record);
        for (size_t k = 0; k < r->fields.count; k++) {
            if (k > 0)
                putchar(',');
            field_print(&r->fields, k, record);
        }
        putchar('\n');
    }
    return finish_output(DONE);
}

static int put_raw(const struct reading *r)
{
    struct buffer key = { NULL, 0, 0 };
    size_t length = r->count * r->width;
    uint8_t *out = malloc(length + 1);
    uint32_t key_size, bytes, number = BHTF_ACCEPTED;
    int status = out == NULL ? out_of_memory() : DONE;

    ask_header(r->copy.bytes, r->copy.length, &key_size);
    if (status == DONE &&
        key_from(&key, (const uint8_t *)r->o->word[1], strlen(r->o->word[1]),
                 key_size) != 0)
        status = out_of_memory();
    if (status == DONE)
        number = bhtf_read_columns(r->copy.bytes, r->copy.length, key.bytes,
                                   key.length, out, length, &bytes);
    if (status == DONE && number != BHTF_ACCEPTED)
        status = refuse_point(r->o->word[0], r->o->word[1], number, key_size, 0);
    if (status == DONE)
        fwrite(out, 1, bytes, stdout);
    buffer_free(&key);
    free(out);
    return status == DONE ? finish_output(DONE) : status;
}

static int put_reading(struct reading *r)
{
    uint64_t given = r->o->given;

    if ((given & OPTION_FIELDS) &&
        fields_read(&r->fields, r->o->fields, (given & OPTION_LITTLE) != 0) != 0)
        return TROUBLE;
    if ((given & OPTION_FIELDS) && r->fields.width != r->width) {
        complain("%s: the records have %lu bytes, and those of --fields %u",
                 r->o->word[1], (unsigned long)r->width, r->fields.width);
        return TROUBLE;
    }
    if (given & OPTION_COLUMN)
        return put_column(r, (size_t)r->o->column);
    return given & OPTION_FIELDS ? put_csv(r) : put_raw(r);
}

int run_read_records(const struct options *o)
{
    struct reading r;
    int status;

    memset(&r, 0, sizeof r);
    r.o = o;
    if (!(o->given & OPTION_CSV) != !(o->given & OPTION_FIELDS) &&
        !(o->given & OPTION_COLUMN)) {
        complain("read-records: --csv goes with --fields");
        return TROUBLE;
    }
    status = find_stored(&r);
    if (status == DONE)
        status = put_reading(&r);
    buffer_free(&r.copy);
    return status;
}
