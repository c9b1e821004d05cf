/* Leica's GSI-16 (Geo Serial Interface), as Leica describes it in its manual
 * of the GSI format.
 *
 * A line, called block, begins with an asterisk and is made of words of 24
 * characters: word index (2), information (4), sign (1), data (16), a blank.
 * The sixth character is the unit of a length: 0 for metres with 3 decimals, 6
 * with 4 and 8 with 5; 1 and 7 are feet. Point numbers and remarks are filled
 * with zeros from the left, so that zeros of their own are lost there.
 *
 *     11 point number   81 easting   82 northing   83 height   71 remark
 */
#include "foreign.h"

#include "utf8.h"

#include <stdlib.h>
#include <string.h>

enum { WORD = 24, DATA = 16, INDEXES = 100 };

/* ---- in ---- */

struct block {
    unsigned long line;
    struct piece name;
    struct piece note;
    struct piece words[3];    /* easting, northing, height; from the sign on */
    char units[3];
    int others[INDEXES];      /* words of these indexes were passed over */
    int has_name;
    int has[3];
};

struct gsi {
    struct arrivals *a;
    size_t bare;              /* blocks without coordinates */
    int others[INDEXES];
    char digits[3][32];
};

static int complain_of_block(const struct gsi *g, const struct block *b,
                             const char *words)
{
    complain("%s: line %lu: %s", g->a->input, b->line, words);
    return TROUBLE;
}

static int is_digit(uint8_t byte)
{
    return byte >= '0' && byte <= '9';
}

/* Without the zeros that fill it from the left, and blanks. */
static struct piece unfilled(struct piece data)
{
    data = piece_trim(data);
    while (data.length > 0 && data.bytes[0] == '0') {
        data.bytes++;
        data.length--;
    }
    return piece_trim(data);
}

/* The same of a point number, which is 0 if it is zeros alone. */
static struct piece unfilled_number(struct piece data)
{
    const struct piece number = unfilled(data);
    const struct piece zero = { (const uint8_t *)"0", 1 };

    return number.length == 0 && piece_trim(data).length > 0 ? zero : number;
}

/* A length as a decimal number; 0, or -1 if it is none in metres. */
static int show_length(char *to, const struct piece *word, char unit)
{
    int decimals = unit == '0' ? 3 : unit == '6' ? 4 : unit == '8' ? 5 : 0;
    int whole = DATA - decimals;
    const char *data = (const char *)word->bytes + 1;
    int first = 0;

    if (decimals == 0)
        return -1;
    for (int i = 0; i < DATA; i++)
        if (!is_digit((uint8_t)data[i]))
            return -1;
    while (first < whole - 1 && data[first] == '0')
        first++;
    sprintf(to, "%s%.*s.%.*s", word->bytes[0] == '-' ? "-" : "", whole - first,
            data + first, decimals, data + whole);
    return 0;
}

static void take_word(struct block *b, const uint8_t *at)
{
    int index = (at[0] - '0') * 10 + at[1] - '0';
    struct piece data = { at + 7, DATA }, word = { at + 6, DATA + 1 };

    if (index == 11) {
        b->name = unfilled_number(data);
        b->has_name = 1;
    } else if (index >= 81 && index <= 83) {
        b->words[index - 81] = word;
        b->units[index - 81] = (char)at[5];
        b->has[index - 81] = 1;
    } else if (index == 71) {
        b->note = unfilled(data);
    } else {
        b->others[index] = 1;
    }
}

/* Is there a word here, whole and ended by a blank or the line's end? */
static int is_word(struct piece rest)
{
    if (rest.length < WORD - 1 || !is_digit(rest.bytes[0]) ||
        !is_digit(rest.bytes[1]))
        return 0;
    if (rest.bytes[6] != '+' && rest.bytes[6] != '-')
        return 0;
    return rest.length == WORD - 1 || rest.bytes[WORD - 1] == ' ';
}

static int take_words(const struct gsi *g, struct block *b, struct piece rest)
{
    while (rest.length > 0) {
        size_t used = rest.length < WORD ? rest.length : WORD;

        if (!is_word(rest))
            return complain_of_block(g, b, "here is no word of GSI-16: 2 "
                                           "digits, 4 characters, a sign, 16 "
                                           "characters and a blank");
        take_word(b, rest.bytes);
        rest.bytes += used;
        rest.length -= used;
        if (rest.length < WORD - 1 && piece_trim(rest).length == 0)
            break;
    }
    return DONE;
}

static void note_others(struct gsi *g, const struct block *b)
{
    for (int i = 0; i < INDEXES; i++)
        g->others[i] |= b->others[i];
}

static int put_block(struct gsi *g, const struct block *b)
{
    struct piece fields[POINT_FIELDS];

    memset(fields, 0, sizeof fields);
    for (int i = EASTING; i <= HEIGHT; i++) {
        fields[i].bytes = (const uint8_t *)g->digits[i];
        if (!b->has[i])
            continue;
        if (show_length(g->digits[i], &b->words[i], b->units[i]) != 0)
            return complain_of_block(g, b, "a coordinate is not 16 digits in "
                                           "metres (unit 0, 6 or 8)");
        fields[i].length = strlen(g->digits[i]);
    }
    fields[NOTE] = b->note;
    return arrive(g->a, b->line, b->name, fields) == 0 ? DONE
                                                       : out_of_memory();
}

static int read_block(struct gsi *g, struct piece text, unsigned long line)
{
    struct block b;

    memset(&b, 0, sizeof b);
    b.line = line;
    if (text.bytes[0] != '*')
        return complain_of_block(g, &b, "a line of GSI-16 begins with *; GSI-8 "
                                        "is not read");
    text.bytes++;
    text.length--;
    if (take_words(g, &b, text) != DONE)
        return TROUBLE;
    note_others(g, &b);
    if (!b.has[EASTING] && !b.has[NORTHING] && !b.has[HEIGHT]) {
        g->bare++;
        return DONE;
    }
    if (!b.has_name || b.name.length == 0)
        return complain_of_block(g, &b, "there are coordinates without a point "
                                        "number (word 11)");
    if (b.has[EASTING] != b.has[NORTHING])
        return complain_of_block(g, &b, "one of easting (81) and northing (82) "
                                        "is missing");
    return put_block(g, &b);
}

static void say_others(const struct gsi *g)
{
    char list[INDEXES * 4] = "";
    size_t length = 0;

    for (int i = 0; i < INDEXES; i++)
        if (g->others[i])
            length += (size_t)sprintf(list + length, " %02d", i);
    if (length > 0)
        complain("%s: words not carried over:%s", g->a->input, list);
}

int gsi_read(struct arrivals *a, struct piece file, int quiet)
{
    struct gsi g;
    unsigned long line = 0;
    int status = DONE;

    memset(&g, 0, sizeof g);
    g.a = a;
    while (file.length > 0 && status == DONE) {
        const uint8_t *end = memchr(file.bytes, '\n', file.length);
        size_t used = end == NULL ? file.length : (size_t)(end - file.bytes);
        struct piece text = { file.bytes, used };

        line++;
        if (text.length > 0 && text.bytes[text.length - 1] == '\r')
            text.length--;
        if (piece_trim(text).length > 0)
            status = read_block(&g, text, line);
        used += end != NULL;
        file.bytes += used;
        file.length -= used;
    }
    if (status == DONE)
        say_loss(a->input, g.bare, "line", "without coordinates left out");
    if (status == DONE && !quiet)
        say_others(&g);
    return status;
}

/* ---- out ---- */

struct losses {
    size_t names;    /* points whose name has no place in GSI */
    size_t twins;    /* points whose number there would be another's, too */
    size_t spelt;    /* names with letters in place of others */
    size_t zeros;    /* names that begin with 0 */
    size_t note_zeros; /* and notes */
    size_t notes;    /* that were cut or changed */
    size_t decimals; /* points with more than five */
};

/* A name on its way out. */
struct number {
    const struct spot *spot;
    struct buffer text;     /* as it is written, without the zeros that fill */
    int plain;              /* GSI can hold it */
    int spelt;              /* letters stand in place of others */
    int changed;            /* it is not the point's own name */
    int left_out;
};

/* ---- letters ---- */

/* ASCII for a letter that has some, as German offices write them. */
static const char *spelling(uint32_t c)
{
    static const struct {
        uint32_t code;
        const char *letters;
    } all[] = {
        { 0xC4, "Ae" }, { 0xD6, "Oe" }, { 0xDC, "Ue" }, { 0xE4, "ae" },
        { 0xF6, "oe" }, { 0xFC, "ue" }, { 0xDF, "ss" }, { 0x1E9E, "SS" }
    };

    for (size_t i = 0; i < sizeof all / sizeof all[0]; i++)
        if (all[i].code == c)
            return all[i].letters;
    return NULL;
}

/* The text in ASCII: *changed if a letter was spelt otherwise, *lost if one
 * became a question mark. 0, or -1 for no memory. */
static int put_ascii(struct buffer *to, struct piece text, int *changed,
                     int *lost)
{
    int done = 0;

    while (text.length > 0) {
        uint32_t c = 0;
        size_t used = utf8_read(text.bytes, text.length, &c);
        const char *letters = used > 1 ? spelling(c) : NULL;

        if (used == 1 && c >= 32 && c < 127) {
            done |= buffer_put_byte(to, (uint8_t)c);
        } else {
            *lost |= letters == NULL;
            *changed = 1;
            letters = letters != NULL ? letters : "?";
            done |= buffer_put(to, letters, strlen(letters));
        }
        used = used > 0 ? used : 1;
        text.bytes += used;
        text.length -= used;
    }
    return done;
}

/* ---- numbers of points ---- */

/* The name as it comes back: without zeros in front, except a last one. Blanks
 * at its ends would be lost. */
static int number_make(struct number *n, const struct spot *s)
{
    struct piece name = { s->name, s->name_length }, kept;
    int lost = 0;

    n->spot = s;
    if (put_ascii(&n->text, name, &n->spelt, &lost) != 0)
        return -1;
    n->changed = n->spelt;
    kept.bytes = n->text.bytes;
    kept.length = n->text.length;
    n->plain = !lost && kept.length <= DATA &&
               piece_trim(kept).length == kept.length;
    while (kept.length > 1 && kept.bytes[0] == '0') {
        kept.bytes++;
        kept.length--;
        n->changed = 1;
    }
    memmove(n->text.bytes, kept.bytes, kept.length);
    n->text.length = kept.length;
    return 0;
}

static int by_text(const void *a, const void *b)
{
    const struct number *const *left = a, *const *right = b;
    const struct buffer *x = &(*left)->text, *y = &(*right)->text;
    size_t shorter = x->length < y->length ? x->length : y->length;
    int order = memcmp(x->bytes, y->bytes, shorter);

    if (order != 0)
        return order;
    return x->length < y->length ? -1 : x->length > y->length;
}

static int same_number(const struct number *a, const struct number *b)
{
    return by_text(&a, &b) == 0;
}

/* Of names that would be one number, those that are not that number
 * themselves are left out: two points never share one. */
static int leave_twins(struct number *all, size_t count)
{
    const struct number **sorted = calloc(count + 1, sizeof *sorted);

    if (sorted == NULL)
        return -1;
    for (size_t i = 0; i < count; i++)
        sorted[i] = &all[i];
    qsort(sorted, count, sizeof *sorted, by_text);
    for (size_t i = 0; i < count; i++) {
        struct number *n = &all[sorted[i] - all];
        int twin = (i > 0 && same_number(sorted[i - 1], n)) ||
                   (i + 1 < count && same_number(n, sorted[i + 1]));

        n->left_out = n->changed && twin;
    }
    free(sorted);
    return 0;
}

/* ---- lengths ---- */

/* Decimals of a number as it is written, without zeros at their end. */
static int decimals_of(struct piece p)
{
    const uint8_t *point;

    p = piece_trim(p);
    point = p.length == 0 ? NULL : memchr(p.bytes, '.', p.length);
    if (point == NULL)
        return 0;
    while (p.bytes[p.length - 1] == '0')
        p.length--;
    return (int)(p.bytes + p.length - point) - 1;
}

/* The unit that carries all decimals of a point's coordinates, if any does. */
static int decimals_needed(const struct piece fields[POINT_FIELDS],
                           struct losses *l)
{
    int most = 3;

    for (int i = EASTING; i <= HEIGHT; i++)
        if (decimals_of(fields[i]) > most)
            most = decimals_of(fields[i]);
    l->decimals += most > 5;
    return most > 5 ? 5 : most;
}

/* Adds one to a number of digits; those of a coordinate do not overflow. */
static void add_one(char digits[DATA + 1])
{
    int at = DATA - 1;

    while (at > 0 && digits[at] == '9')
        digits[at--] = '0';
    digits[at]++;
}

/* Writes sixteen digits, `decimals` of them decimals, from the text's own: a tie
 * is rounded away from zero, as on paper. */
static void put_length(int index, struct piece p, int decimals)
{
    static const char units[] = "000068";
    const uint8_t *end, *point, *digit;
    char digits[DATA + 1];
    int negative, at = DATA - decimals;

    p = piece_trim(p);
    negative = p.bytes[0] == '-';
    end = p.bytes + p.length;
    point = memchr(p.bytes, '.', p.length);
    point = point != NULL ? point : end;
    memset(digits, '0', DATA);
    digits[DATA] = '\0';
    for (digit = point; digit > p.bytes && is_digit(digit[-1]) && at > 0;)
        digits[--at] = (char)*--digit;
    for (at = 0; at < decimals && point + 1 + at < end; at++)
        digits[DATA - decimals + at] = (char)point[1 + at];
    if (point + 1 + decimals < end && point[1 + decimals] >= '5')
        add_one(digits);
    negative = negative && strspn(digits, "0") < DATA;
    printf("%02d..1%c%c%s ", index, units[decimals], negative ? '-' : '+',
           digits);
}

/* ---- blocks ---- */

/* Up to 16 characters, filled with zeros. */
static void put_text(const struct buffer *text)
{
    size_t length = text->length < DATA ? text->length : DATA;

    for (size_t i = length; i < DATA; i++)
        putchar('0');
    fwrite(text->bytes, 1, length, stdout);
    putchar(' ');
}

static int put_note(struct piece note, struct losses *l)
{
    struct buffer text = { NULL, 0, 0 };
    int changed = 0, lost = 0, done;

    note = piece_trim(note);
    if (note.length == 0)
        return 0;
    done = put_ascii(&text, note, &changed, &lost);
    l->notes += changed || text.length > DATA;
    l->note_zeros += note.bytes[0] == '0';
    fputs("71....+", stdout);
    put_text(&text);
    buffer_free(&text);
    return done;
}

static int put_block_of(const struct number *n, struct record *r,
                        struct losses *l, unsigned long number)
{
    static const int indexes[] = { 81, 82, 83 };
    struct piece fields[POINT_FIELDS];
    int decimals;

    if (!point_take(r, n->spot->text, fields))
        return -1;
    decimals = decimals_needed(fields, l);
    l->zeros += n->spot->name_length > 1 && n->spot->name[0] == '0';
    l->spelt += (size_t)n->spelt;
    printf("*11%04lu+", number % 10000);
    put_text(&n->text);
    for (int i = EASTING; i <= HEIGHT; i++)
        if (piece_trim(fields[i]).length > 0)
            put_length(indexes[i], fields[i], decimals);
    if (put_note(fields[NOTE], l) != 0)
        return -1;
    fputs("\r\n", stdout);
    return 0;
}

static void say_losses(const struct losses *l, const char *file)
{
    say_loss(file, l->names, "point", "left out: GSI-16 has names of 1 to 16 "
                                      "ASCII characters");
    say_loss(file, l->twins, "point", "left out: in GSI another point would "
                                      "have the same number");
    say_loss(file, l->spelt, "name", "spelt with ae, oe, ue or ss");
    say_loss(file, l->zeros, "name", "with zeros in front, which GSI loses");
    say_loss(file, l->note_zeros, "note", "with zeros in front, which GSI "
                                          "loses");
    say_loss(file, l->notes, "note", "cut to 16 ASCII characters");
    say_loss(file, l->decimals, "point", "rounded to 0.01 mm");
}

/* Points are missed, or names and notes are not what they were. */
static int has_losses(const struct losses *l)
{
    return l->names + l->twins + l->spelt + l->zeros + l->note_zeros +
           l->notes > 0;
}

static int put_blocks(const struct number *all, size_t count,
                      struct losses *l)
{
    struct record record;
    unsigned long number = 1;
    int done = 0;

    memset(&record, 0, sizeof record);
    for (size_t i = 0; i < count && done == 0; i++) {
        l->names += !all[i].plain;
        l->twins += all[i].plain && all[i].left_out;
        if (all[i].plain && !all[i].left_out)
            done = put_block_of(&all[i], &record, l, number++);
    }
    buffer_free(&record.bytes);
    return done;
}

/* The numbers of the points that have coordinates. */
static int make_numbers(struct number *all, size_t *count,
                        const struct site *s)
{
    for (size_t i = 0; i < s->count; i++)
        if (has_coordinates(&s->spots[i]) &&
            number_make(&all[(*count)++], &s->spots[i]) != 0)
            return -1;
    return leave_twins(all, *count);
}

int gsi_write(const struct site *s, const struct options *o)
{
    struct losses losses = { 0, 0, 0, 0, 0, 0, 0 };
    struct number *all = calloc(s->count + 1, sizeof *all);
    size_t count = 0;
    int done = all == NULL ? -1 : make_numbers(all, &count, s);

    if (done == 0)
        done = put_blocks(all, count, &losses);
    for (size_t i = 0; i < count; i++)
        buffer_free(&all[i].text);
    free(all);
    if (done != 0)
        return out_of_memory();
    say_losses(&losses, o->word[0]);
    return has_losses(&losses) ? PARTIAL : DONE;
}
