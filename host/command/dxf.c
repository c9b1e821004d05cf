/* DXF as AutoCAD's release 12 writes it in ASCII (AutoCAD DXF Reference):
 * pairs of lines, a group code and a value. Each point is a POINT on the layer
 * POINTS and a TEXT with its name on the layer NAMES. */
#include "foreign.h"

#include "svg.h"
#include "utf8.h"

#include <math.h>
#include <string.h>

static void put_word(int code, const char *value)
{
    printf("%3d\r\n%s\r\n", code, value);
}

static void put_number(int code, double value)
{
    printf("%3d\r\n%.6f\r\n", code, value);
}

static void put_place(double east, double north, double height)
{
    put_number(10, east);
    put_number(20, north);
    put_number(30, height);
}

/* Is this one of two percent signs? Together they begin a code. */
static int is_percent(struct piece name, size_t at)
{
    return name.bytes[at] == '%' &&
           ((at > 0 && name.bytes[at - 1] == '%') ||
            (at + 1 < name.length && name.bytes[at + 1] == '%'));
}

/* A character of the text: code page 1252 up to 255, \U+XXXX above it and for
 * the backslash, "^ " for the caret, %%% for a percent sign beside another;
 * else a question mark. Answers 1 for that. */
static int put_character(struct piece name, size_t at, uint32_t c)
{
    if (c == '^')
        fputs("^ ", stdout);
    else if (c == '%' && is_percent(name, at))
        fputs("%%%", stdout);
    else if ((c > 0xFF && c <= 0xFFFF) || c == '\\')
        printf("\\U+%04lX", (unsigned long)c);
    else if ((c >= 32 && c < 127) || (c >= 0xA0 && c <= 0xFF))
        putchar((int)c);
    else
        putchar('?');
    return c < 32 || (c >= 127 && c < 0xA0) || c > 0xFFFF;
}

/* Answers whether it has a character that DXF cannot hold. */
static int put_name(int code, struct piece name)
{
    size_t used;
    int lost = 0;

    printf("%3d\r\n", code);
    for (size_t at = 0; at < name.length; at += used) {
        uint32_t c = 0;

        used = utf8_read(name.bytes + at, name.length - at, &c);
        lost |= put_character(name, at, used > 0 ? c : 127);
        used = used > 0 ? used : 1;
    }
    fputs("\r\n", stdout);
    return lost;
}

static void put_layer(const char *name, const char *colour)
{
    put_word(0, "LAYER");
    put_word(2, name);
    put_word(70, "0");
    put_word(62, colour);
    put_word(6, "CONTINUOUS");
}

/* What is drawn: in the plane, and in height. */
struct extent {
    struct bounds plane;
    double least;
    double most;
};

static void put_head(const struct extent *e)
{
    const struct bounds *b = &e->plane;

    put_word(0, "SECTION");
    put_word(2, "HEADER");
    put_word(9, "$ACADVER");
    put_word(1, "AC1009");
    put_word(9, "$DWGCODEPAGE");
    put_word(3, "ANSI_1252");
    put_word(9, "$EXTMIN");
    put_place(b->least.east, b->least.north, e->least);
    put_word(9, "$EXTMAX");
    put_place(b->most.east, b->most.north, e->most);
    put_word(9, "$PDMODE");
    put_word(70, "34");
    put_word(0, "ENDSEC");
    put_word(0, "SECTION");
    put_word(2, "TABLES");
    put_word(0, "TABLE");
    put_word(2, "LAYER");
    put_word(70, "2");
    put_layer("POINTS", "7");
    put_layer("NAMES", "3");
    put_word(0, "ENDTAB");
    put_word(0, "ENDSEC");
}

/* Where it is drawn; a point without a height at 0. */
static double height_of(const struct spot *s)
{
    return s->has_height ? s->height : 0;
}

/* Answers whether its name has a character that DXF cannot hold. */
static int put_spot(const struct spot *s, double size)
{
    const struct piece name = { s->name, s->name_length };
    double height = height_of(s);

    put_word(0, "POINT");
    put_word(8, "POINTS");
    put_place(s->at.east, s->at.north, height);
    put_word(0, "TEXT");
    put_word(8, "NAMES");
    put_place(s->at.east + size / 2, s->at.north + size / 2, height);
    put_number(40, size);
    return put_name(1, name);
}

/* Letters of about a two-hundredth of the site, at least 5 cm. */
static double letter_size(const struct bounds *b)
{
    double wide = fmax(b->most.east - b->least.east,
                       b->most.north - b->least.north);

    return round_up(fmax(wide / 200, 0.05));
}

static void extent_put(struct extent *e, const struct spot *s)
{
    double height = height_of(s);

    if (!e->plane.any)
        e->least = e->most = height;
    e->least = fmin(e->least, height);
    e->most = fmax(e->most, height);
    bounds_put(&e->plane, &s->at);
}

static struct extent extent_of(const struct site *s)
{
    struct extent e;

    memset(&e, 0, sizeof e);
    for (size_t i = 0; i < s->count; i++)
        if (s->spots[i].kind == SPOT_PLACED)
            extent_put(&e, &s->spots[i]);
    return e;
}

int dxf_write(const struct site *s, const struct options *o)
{
    struct extent extent = extent_of(s);
    double size = letter_size(&extent.plane);
    size_t flat = 0, changed = 0;

    put_head(&extent);
    put_word(0, "SECTION");
    put_word(2, "ENTITIES");
    for (size_t i = 0; i < s->count; i++) {
        if (s->spots[i].kind != SPOT_PLACED)
            continue;
        flat += !s->spots[i].has_height;
        changed += (size_t)put_spot(&s->spots[i], size);
    }
    put_word(0, "ENDSEC");
    put_word(0, "EOF");
    if (!o->quiet)
        say_loss(o->word[0], flat, "point", "without a height put at height "
                                            "0");
    say_loss(o->word[0], changed, "name", "with characters that DXF cannot "
                                          "hold, put as ?");
    return changed > 0 ? PARTIAL : DONE;
}
