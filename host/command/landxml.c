/* LandXML 1.2's CgPoints, as its schema (landxml.org) has them: a CgPoint with
 * the attributes name and desc, and as its text northing, easting and, if
 * known, height. Read with expat. */
#include "foreign.h"

#include "svg.h"

#include <expat.h>
#include <string.h>
#include <sys/stat.h>
#include <time.h>

/* ---- in ---- */

enum { OTHERS = 32, OTHER = 40 };

struct landxml {
    struct arrivals *a;
    XML_Parser parser;
    int depth;
    int in_point;             /* the depth of the CgPoint that is read, or 0 */
    unsigned long line;       /* where it begins */
    int refers;               /* it names another point, and has no place */
    struct buffer name;
    struct buffer note;
    struct buffer text;
    int units;                /* metres were met */
    int gone;                 /* it is destroyed, abandoned or proposed */
    size_t references;
    size_t left_out;          /* points of such a state */
    char others[OTHERS][OTHER]; /* parts of the file that are not points */
    size_t other_count;
    size_t more;              /* parts after as many names */
    int status;
};

/* Says what is wrong on a line, and ends the reading. */
static void stop(struct landxml *x, unsigned long line, const char *words)
{
    if (x->status != DONE)
        return;
    complain("%s: line %lu: %s", x->a->input, line, words);
    x->status = TROUBLE;
    XML_StopParser(x->parser, XML_FALSE);
}

static void stop_for_memory(struct landxml *x)
{
    if (x->status == DONE)
        x->status = out_of_memory();
    XML_StopParser(x->parser, XML_FALSE);
}

static unsigned long line_of(const struct landxml *x)
{
    return (unsigned long)XML_GetCurrentLineNumber(x->parser);
}

/* An element's name without its prefix. */
static const char *local(const char *name)
{
    const char *colon = strrchr(name, ':');

    return colon == NULL ? name : colon + 1;
}

static const char *attribute(const char **all, const char *name)
{
    for (; all[0] != NULL; all += 2)
        if (strcmp(local(all[0]), name) == 0)
            return all[1];
    return NULL;
}

static void keep(struct landxml *x, struct buffer *to, const char *word)
{
    to->length = 0;
    if (word != NULL && buffer_put(to, word, strlen(word)) != 0)
        stop_for_memory(x);
}

/* Is the point none that can be used? */
static int is_gone(const char *state)
{
    return state != NULL && (strcmp(state, "destroyed") == 0 ||
                             strcmp(state, "abandoned") == 0 ||
                             strcmp(state, "proposed") == 0);
}

static void begin_point(struct landxml *x, const char **attributes)
{
    const char *note = attribute(attributes, "desc");

    x->in_point = x->depth;
    x->line = line_of(x);
    x->refers = attribute(attributes, "pntRef") != NULL;
    x->text.length = 0;
    keep(x, &x->name, attribute(attributes, "name"));
    keep(x, &x->note, note != NULL && note[0] != '\0'
                          ? note : attribute(attributes, "code"));
    x->gone = is_gone(attribute(attributes, "state"));
}

static void check_unit(struct landxml *x, const char *element,
                       const char **attributes)
{
    const char *unit = attribute(attributes, "linearUnit");

    if (strcmp(element, "Metric") == 0 && unit != NULL &&
        strcmp(unit, "meter") == 0)
        x->units = 1;
    else
        stop(x, line_of(x), "lengths are not in metres (linearUnit meter)");
}

/* Remembers a part of the file that is not carried over. */
static void note_other(struct landxml *x, const char *element)
{
    static const char *const known[] = { "CgPoints", "Units", "Project",
                                         "Application", "CoordinateSystem" };

    for (size_t i = 0; i < sizeof known / sizeof known[0]; i++)
        if (strcmp(element, known[i]) == 0)
            return;
    for (size_t i = 0; i < x->other_count; i++)
        if (strncmp(element, x->others[i], OTHER - 1) == 0)
            return;
    if (x->other_count < OTHERS)
        snprintf(x->others[x->other_count++], OTHER, "%s", element);
    else
        x->more++;
}

static void XMLCALL begin(void *user, const char *name,
                          const char **attributes)
{
    struct landxml *x = user;
    const char *element = local(name);

    x->depth++;
    if (x->depth == 1 && strcmp(element, "LandXML") != 0)
        stop(x, line_of(x), "this is no LandXML file");
    else if (x->depth == 2)
        note_other(x, element);
    else if (strcmp(element, "CgPoint") == 0 && x->in_point == 0)
        begin_point(x, attributes);
    else if (strcmp(element, "Metric") == 0 ||
             strcmp(element, "Imperial") == 0)
        check_unit(x, element, attributes);
}

static void XMLCALL characters(void *user, const char *text, int length)
{
    struct landxml *x = user;

    if (x->in_point == x->depth && x->in_point > 0 &&
        buffer_put(&x->text, text, (size_t)length) != 0)
        stop_for_memory(x);
}

static int is_space(uint8_t byte)
{
    return byte == ' ' || byte == '\t' || byte == '\n' || byte == '\r';
}

/* The next word of a text, or one of length 0. */
static struct piece next_word(struct piece *rest)
{
    struct piece word;

    while (rest->length > 0 && is_space(rest->bytes[0])) {
        rest->bytes++;
        rest->length--;
    }
    word.bytes = rest->bytes;
    word.length = 0;
    while (rest->length > 0 && !is_space(rest->bytes[0])) {
        rest->bytes++;
        rest->length--;
        word.length++;
    }
    return word;
}

/* Two or three numbers and nothing else: 0, or -1. */
static int take_place(struct piece fields[POINT_FIELDS], struct piece text)
{
    fields[NORTHING] = next_word(&text);
    fields[EASTING] = next_word(&text);
    fields[HEIGHT] = next_word(&text);
    return is_number(fields[NORTHING], '.') &&
           is_number(fields[EASTING], '.') &&
           (fields[HEIGHT].length == 0 || is_number(fields[HEIGHT], '.')) &&
           next_word(&text).length == 0 ? 0 : -1;
}

static struct piece piece_of(const struct buffer *b)
{
    struct piece p = { (const uint8_t *)"", b->length };

    if (b->length > 0)
        p.bytes = b->bytes;
    return p;
}

static void end_point(struct landxml *x)
{
    struct piece fields[POINT_FIELDS];

    x->in_point = 0;
    if (x->refers) {
        x->references++;
        return;
    }
    if (x->gone) {
        x->left_out++;
        return;
    }
    if (x->name.length == 0) {
        stop(x, x->line, "the CgPoint has no name");
        return;
    }
    if (take_place(fields, piece_of(&x->text)) != 0) {
        stop(x, x->line, "a CgPoint is northing, easting and perhaps height, "
                         "as plain decimal numbers");
        return;
    }
    fields[NOTE] = piece_of(&x->note);
    if (arrive(x->a, x->line, piece_of(&x->name), fields) != 0)
        stop_for_memory(x);
}

static void XMLCALL end(void *user, const char *name)
{
    struct landxml *x = user;

    (void)name;
    if (x->in_point == x->depth)
        end_point(x);
    x->depth--;
}

static void say_rest(const struct landxml *x, int quiet)
{
    if (!x->units)
        complain("%s: warning: the file does not say its units; metres are "
                 "taken", x->a->input);
    say_loss(x->a->input, x->left_out, "CgPoint", "destroyed, abandoned or "
                                                  "proposed left out");
    if (quiet)
        return;
    say_loss(x->a->input, x->references, "CgPoint", "that refers to another "
                                                    "point left out");
    for (size_t i = 0; i < x->other_count; i++)
        complain("%s: %s not carried over", x->a->input, x->others[i]);
    say_loss(x->a->input, x->more, "other part", "not carried over");
}

static void parse(struct landxml *x, struct piece file)
{
    XML_SetUserData(x->parser, x);
    XML_SetElementHandler(x->parser, begin, end);
    XML_SetCharacterDataHandler(x->parser, characters);
    if (XML_Parse(x->parser, (const char *)file.bytes, (int)file.length,
                  1) == XML_STATUS_OK || x->status != DONE)
        return;
    complain("%s: line %lu: this is not XML: %s", x->a->input, line_of(x),
             XML_ErrorString(XML_GetErrorCode(x->parser)));
    x->status = TROUBLE;
}

int landxml_read(struct arrivals *a, struct piece file, int quiet)
{
    struct landxml x;

    memset(&x, 0, sizeof x);
    x.a = a;
    x.parser = XML_ParserCreate(NULL);
    if (x.parser == NULL)
        return out_of_memory();
    parse(&x, file);
    XML_ParserFree(x.parser);
    if (x.status == DONE)
        say_rest(&x, quiet);
    buffer_free(&x.name);
    buffer_free(&x.note);
    buffer_free(&x.text);
    return x.status;
}

/* ---- out ---- */

/* The file's own time: equal files give equal output. */
static void put_head(const char *file)
{
    char date[40] = "date=\"1970-01-01\" time=\"00:00:00\"";
    struct stat about;
    struct tm utc;

    if (stat(file, &about) == 0 && gmtime_r(&about.st_mtime, &utc) != NULL &&
        utc.tm_year >= -900 && utc.tm_year < 8100) /* years of four digits */
        strftime(date, sizeof date, "date=\"%Y-%m-%d\" time=\"%H:%M:%S\"",
                 &utc);
    printf("<?xml version=\"1.0\" encoding=\"UTF-8\"?>\n"
           "<LandXML xmlns=\"http://www.landxml.org/schema/LandXML-1.2\" "
           "version=\"1.2\" %s>\n"
           "<Units><Metric areaUnit=\"squareMeter\" linearUnit=\"meter\" "
           "volumeUnit=\"cubicMeter\" temperatureUnit=\"celsius\" "
           "pressureUnit=\"milliBars\"/></Units>\n"
           "<Application name=\"bhtf\" version=\"" VERSION "\"/>\n"
           "<CgPoints>\n", date);
}

static void put_attribute(const char *name, struct piece value, size_t *lost)
{
    printf(" %s=\"", name);
    *lost += xml_put(stdout, (const char *)value.bytes, value.length) > 0;
    putchar('"');
}

static void put_place(const struct piece fields[POINT_FIELDS])
{
    static const int order[] = { NORTHING, EASTING, HEIGHT };

    for (int i = 0; i < 3; i++) {
        struct piece number = piece_trim(fields[order[i]]);

        if (number.length > 0)
            printf("%s%.*s", i == 0 ? "" : " ", (int)number.length,
                   (const char *)number.bytes);
    }
}

/* A name is written with its own characters, or its point is left out. */
static int put_spot(const struct spot *s, struct record *r, size_t *lost)
{
    const struct piece name = { s->name, s->name_length };
    struct piece fields[POINT_FIELDS];

    if (!point_take(r, s->text, fields))
        return out_of_memory();
    fputs("<CgPoint", stdout);
    put_attribute("name", name, lost);
    if (fields[NOTE].length > 0)
        put_attribute("desc", fields[NOTE], lost);
    putchar('>');
    put_place(fields);
    fputs("</CgPoint>\n", stdout);
    return DONE;
}

int landxml_write(const struct site *s, const struct options *o)
{
    struct record record;
    size_t lost = 0, unnamed = 0;
    int status = DONE;

    memset(&record, 0, sizeof record);
    put_head(o->word[0]);
    for (size_t i = 0; i < s->count && status == DONE; i++) {
        const struct spot *spot = &s->spots[i];

        if (spot->kind != SPOT_PLACED)
            continue;
        if (xml_holds((const char *)spot->name, spot->name_length))
            status = put_spot(spot, &record, &lost);
        else
            unnamed++;
    }
    fputs("</CgPoints>\n</LandXML>\n", stdout);
    buffer_free(&record.bytes);
    say_loss(o->word[0], unnamed, "point", "left out: the name has characters "
                                           "that XML cannot hold");
    say_loss(o->word[0], lost, "note", "with characters that XML cannot hold, "
                                       "put as U+FFFD");
    return status == DONE && unnamed + lost > 0 ? PARTIAL : status;
}
