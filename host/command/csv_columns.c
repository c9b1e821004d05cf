/* Which field of a CSV file is what. */
#include "csv_columns.h"

#include "complain.h"
#include "typed.h"

#include <stdio.h>
#include <string.h>

const char *const column_words[COLUMNS] = { "easting", "northing", "height",
                                            "note", "name", "text",
                                            "empty", "epoch" };

/* ---- words ---- */

static const struct {
    const char *word;
    int column;
} synonyms[] = {
    { "name", COLUMN_NAME }, { "p", COLUMN_NAME }, { "pt", COLUMN_NAME },
    { "point", COLUMN_NAME }, { "point name", COLUMN_NAME },
    { "point number", COLUMN_NAME }, { "point no", COLUMN_NAME },
    { "point no.", COLUMN_NAME }, { "point id", COLUMN_NAME },
    { "pointname", COLUMN_NAME }, { "pointid", COLUMN_NAME },
    { "point_name", COLUMN_NAME }, { "point_id", COLUMN_NAME },
    { "id", COLUMN_NAME }, { "no", COLUMN_NAME }, { "no.", COLUMN_NAME },
    { "nr", COLUMN_NAME }, { "nr.", COLUMN_NAME }, { "number", COLUMN_NAME },
    { "punkt", COLUMN_NAME }, { "punktnummer", COLUMN_NAME },
    { "punktnr", COLUMN_NAME }, { "punktnr.", COLUMN_NAME },
    { "punktname", COLUMN_NAME }, { "pnr", COLUMN_NAME },
    { "easting", EASTING }, { "e", EASTING }, { "east", EASTING },
    { "rechtswert", EASTING }, { "rechts", EASTING }, { "rw", EASTING },
    { "ost", EASTING }, { "ostwert", EASTING },
    { "northing", NORTHING }, { "n", NORTHING }, { "north", NORTHING },
    { "hochwert", NORTHING }, { "hoch", NORTHING }, { "hw", NORTHING },
    { "nord", NORTHING }, { "nordwert", NORTHING },
    { "height", HEIGHT }, { "h", HEIGHT }, { "z", HEIGHT },
    { "elevation", HEIGHT }, { "elev", HEIGHT }, { "elev.", HEIGHT },
    { "level", HEIGHT }, { "rl", HEIGHT }, { "hoehe", HEIGHT },
    { "h\xC3\xB6he", HEIGHT }, { "h\xC3\x96he", HEIGHT },
    { "note", NOTE }, { "notes", NOTE }, { "d", NOTE }, { "desc", NOTE },
    { "desc.", NOTE }, { "description", NOTE }, { "code", NOTE },
    { "remark", NOTE }, { "remarks", NOTE }, { "comment", NOTE },
    { "bemerkung", NOTE }, { "beschreibung", NOTE },
    { "text", COLUMN_TEXT }, { "empty", COLUMN_EMPTY },
    { "epoch", COLUMN_EPOCH }, { "epoche", COLUMN_EPOCH },
    { "date", COLUMN_DATE }, { "datum", COLUMN_DATE },
    { "week", COLUMN_DATE }, { "woche", COLUMN_DATE },
    { "-", COLUMN_SKIPPED },
    { "x", COLUMN_X }, { "y", COLUMN_Y }
};

/* Takes what stands in brackets at a word's end off it: length 0 if nothing
 * does. */
static struct piece take_brackets(struct piece *word)
{
    struct piece inside = { word->bytes, 0 };
    size_t i = word->length;

    if (i == 0 || (word->bytes[i - 1] != ']' && word->bytes[i - 1] != ')'))
        return inside;
    while (i > 0 && word->bytes[i - 1] != '[' && word->bytes[i - 1] != '(')
        i--;
    if (i == 0)
        return inside;
    inside.bytes = word->bytes + i;
    inside.length = word->length - i - 1;
    word->length = i - 1;
    *word = piece_trim(*word);
    return piece_trim(inside);
}

static int is_metres(struct piece unit)
{
    static const char *const words[] = { "m", "metre", "metres", "meter",
                                         "meters", "m.", "metern" };

    for (size_t i = 0; i < sizeof words / sizeof words[0]; i++)
        if (same_word(unit.bytes, unit.length, words[i]))
            return 1;
    return unit.length == 0;
}

static int is_length(int column)
{
    return column == EASTING || column == NORTHING || column == HEIGHT ||
           column == COLUMN_X || column == COLUMN_Y;
}

int column_of(struct piece word)
{
    struct piece unit;

    word = piece_trim(word);
    unit = take_brackets(&word);
    for (size_t i = 0; i < sizeof synonyms / sizeof synonyms[0]; i++)
        if (same_word(word.bytes, word.length, synonyms[i].word))
            return is_length(synonyms[i].column) && !is_metres(unit)
                ? COLUMN_OTHER_UNIT : synonyms[i].column;
    return COLUMN_UNKNOWN;
}

/* ---- a row of columns ---- */

/* What each field is, in its order. */
struct row {
    int column[FIELDS_MAX];
    size_t fields;
};

static int has(const struct row *row, int column)
{
    for (size_t i = 0; i < row->fields; i++)
        if (row->column[i] == column)
            return 1;
    return 0;
}

/* Puts each column where it stands: NULL, or what is wrong. */
static const char *place_columns(struct columns *c, const struct row *row)
{
    for (int i = 0; i < COLUMNS; i++)
        c->at[i] = -1;
    for (size_t i = 0; i < row->fields; i++) {
        int column = row->column[i];

        if (column >= COLUMNS)
            continue;
        if (c->at[column] >= 0) {
            snprintf(c->wrong, sizeof c->wrong, "a column stands there twice: "
                     "%s, as number %d and number %d", column_words[column],
                     c->at[column] + 1, (int)i + 1);
            return c->wrong;
        }
        c->at[column] = (int)i;
    }
    if (c->at[COLUMN_NAME] < 0)
        return "there is no column for the name";
    if ((c->at[EASTING] < 0) != (c->at[NORTHING] < 0))
        return "easting and northing go together";
    c->fields = row->fields;
    return NULL;
}

/* ---- from --columns ---- */

/* PNEZD and the like: a letter for each column. */
static int row_from_letters(struct row *row, const char *value)
{
    size_t length = strlen(value);

    row->fields = 0;
    if (length < 2 || length > COLUMNS)
        return 0;
    for (size_t i = 0; i < length; i++) {
        const struct piece letter = { (const uint8_t *)value + i, 1 };

        if (strchr("PNEZDpnezd", value[i]) == NULL)
            return 0;
        row->column[row->fields++] = column_of(letter);
    }
    return 1;
}

/* Words between commas; 0 where one is unknown. */
static int row_from_words(struct row *row, const char *value)
{
    struct record record;
    struct csv csv;
    int known = 1;

    memset(&record, 0, sizeof record);
    csv_from_bytes(&csv, (const uint8_t *)value, strlen(value));
    row->fields = 0;
    if (csv_read(&csv, &record) != CSV_RECORD || record.fields > FIELDS_MAX)
        known = 0;
    for (size_t i = 0; known && i < record.fields; i++) {
        row->column[i] = column_of(record_field(&record, i));
        row->fields++;
        known = row->column[i] != COLUMN_UNKNOWN &&
                row->column[i] != COLUMN_DATE;
    }
    buffer_free(&record.bytes);
    return known;
}

int columns_from_option(struct columns *c, const char *value)
{
    const char *wrong = "a word is not known";
    struct row row;

    if (row_from_letters(&row, value) || row_from_words(&row, value)) {
        if (has(&row, COLUMN_X) || has(&row, COLUMN_Y))
            wrong = "x and y may each be easting or northing";
        else if (has(&row, COLUMN_OTHER_UNIT))
            wrong = "lengths are in metres";
        else
            wrong = place_columns(c, &row);
    }
    if (wrong == NULL)
        return DONE;
    complain("--columns %s: %s; it takes PNEZD, PENZD, or words out of name, "
             "easting, northing, height, note, text, empty, epoch and - (a "
             "column to pass over)", value, wrong);
    return TROUBLE;
}

/* ---- from a heading ---- */

static int is_known(int column)
{
    return column != COLUMN_UNKNOWN && column != COLUMN_SKIPPED &&
           column != COLUMN_DATE;
}

int is_heading(const struct record *r)
{
    size_t known = 0;

    for (size_t i = 0; i < r->fields && i < FIELDS_MAX; i++) {
        const struct piece field = piece_trim(record_field(r, i));

        if (field.length == 0 || is_number(field, '.') || is_number(field, ','))
            return 0;
        known += is_known(column_of(field)) != 0;
    }
    return known >= 2;
}

static int complain_of_heading(const char *place, const char *wrong)
{
    complain("%s: the heading: %s; --columns names the columns (name, easting, "
             "northing, height, note, text, empty, epoch, or - for one to pass "
             "over)", place, wrong);
    return TROUBLE;
}

/* The first word that is this. */
static struct piece word_of(const struct record *r, const struct row *row,
                            int column)
{
    struct piece word;
    size_t i = 0;

    while (row->column[i] != column)
        i++;
    word = piece_trim(record_field(r, i));
    word.length = word.length > 60 ? 60 : word.length;
    return word;
}

static int complain_of_date(const char *place, struct piece word)
{
    complain("%s: the heading: %.*s: --epoch-unit day or week takes such a "
             "column for the epochs of readings, in a file of epochs; "
             "--columns with - in its place passes over it", place,
             (int)word.length, (const char *)word.bytes);
    return TROUBLE;
}

static int complain_of_word(const char *place, struct piece word)
{
    complain("%s: the heading: %.*s is not known; --columns names the columns, "
             "with - for one to pass over", place, (int)word.length,
             (const char *)word.bytes);
    return TROUBLE;
}

/* Numbers of another unit would be taken for metres. */
static int complain_of_unit(const char *place, struct piece word)
{
    complain("%s: the heading: %.*s is not in metres, or not a coordinate; a "
             "unit in brackets is m. Lengths are stored in metres, as they "
             "stand", place, (int)word.length, (const char *)word.bytes);
    return TROUBLE;
}

/* Is what the heading says, where it says something, what is known? */
static int agrees(const struct columns *c, const struct row *row)
{
    for (size_t i = 0; i < row->fields; i++) {
        int column = row->column[i];

        if (column < COLUMNS && c->at[column] != (int)i)
            return 0;
    }
    return 1;
}

/* What --columns passes over says nothing. */
static void pass_unwanted(const struct columns *c, struct row *row)
{
    for (size_t i = 0; i < row->fields; i++) {
        int wanted = 0;

        for (int j = 0; j < COLUMNS; j++)
            wanted |= c->at[j] == (int)i;
        if (!wanted)
            row->column[i] = COLUMN_SKIPPED;
    }
}

/* The columns of --columns, with a heading above them. An x or y, a word that
 * is unknown, and a column that is to be passed over say nothing. */
static int compare(const struct columns *c, const struct row *row,
                   const char *place)
{
    if (row->fields != c->fields)
        return complain_of_heading(place, "it has another number of columns "
                                          "than --columns");
    if (agrees(c, row))
        return DONE;
    return complain_of_heading(place, "it contradicts --columns");
}

static int column_in(const struct columns *c, struct piece word)
{
    int column = column_of(word);

    return column == COLUMN_DATE && c->dates ? COLUMN_EPOCH : column;
}

int columns_from_heading(struct columns *c, const struct record *r,
                         const char *place)
{
    const char *wrong = NULL;
    struct row row;

    row.fields = r->fields < FIELDS_MAX ? r->fields : FIELDS_MAX;
    for (size_t i = 0; i < row.fields; i++)
        row.column[i] = column_in(c, record_field(r, i));
    if (c->fields != 0)
        pass_unwanted(c, &row);
    if (has(&row, COLUMN_OTHER_UNIT))
        return complain_of_unit(place, word_of(r, &row, COLUMN_OTHER_UNIT));
    if (c->fields != 0)
        return compare(c, &row, place);
    if (r->fields > FIELDS_MAX)
        wrong = "there are too many columns";
    else if (has(&row, COLUMN_X) || has(&row, COLUMN_Y))
        wrong = "x and y are each easting to some and northing to others";
    else if (has(&row, COLUMN_DATE))
        return complain_of_date(place, word_of(r, &row, COLUMN_DATE));
    else if (has(&row, COLUMN_UNKNOWN))
        return complain_of_word(place, word_of(r, &row, COLUMN_UNKNOWN));
    else
        wrong = place_columns(c, &row);
    return wrong == NULL ? DONE : complain_of_heading(place, wrong);
}

int columns_show(const struct columns *c, struct buffer *to)
{
    int done = 0;

    for (size_t i = 0; i < c->fields; i++) {
        const char *word = "-";

        for (int j = 0; j < COLUMNS; j++)
            if (c->at[j] == (int)i)
                word = column_words[j];
        if (i > 0)
            done |= buffer_put_byte(to, ',');
        done |= buffer_put(to, word, strlen(word));
    }
    return done;
}
