/* PDF and PNG of a drawing, by librsvg, which draws with cairo and pango.
 *
 * The library is looked for when a picture is asked for, and not when the
 * command starts: it brings forty others along, which would make every other
 * call ten milliseconds slower, and a station has no use for it. */
#include "picture.h"

#include <dlfcn.h>
#include <math.h>
#include <string.h>

#define LIBRARY "librsvg-2.so.2"

static const double inch = 25.4;
static const double points_an_inch = 72;
static const double dots_an_inch = 200; /* of a PNG */

/* RsvgRectangle of the library. */
struct rectangle {
    double x;
    double y;
    double width;
    double height;
};

enum { RGB24 = 1, SUCCESS = 0, META_TITLE = 0, META_DATE = 5 };

typedef int (*put_bytes_to)(void *buffer, const unsigned char *bytes,
                            unsigned length);

/* What is called of it; handles are theirs. */
static struct {
    void *(*svg_new)(const uint8_t *bytes, size_t length, void **error);
    int (*svg_draw)(void *svg, void *to, const struct rectangle *where,
                    void **error);
    void (*object_free)(void *object);
    void *(*pdf_new)(put_bytes_to put, void *buffer, double width,
                     double height);
    void (*pdf_size)(void *surface, double width, double height);
    void (*pdf_say)(void *surface, int what, const char *words);
    void *(*image_new)(int format, int width, int height);
    int (*image_put)(void *surface, put_bytes_to put, void *buffer);
    void *(*pen_new)(void *surface);
    int (*pen_status)(void *pen);
    void (*pen_colour)(void *pen, double red, double green, double blue);
    void (*pen_fill)(void *pen);
    void (*pen_free)(void *pen);
    void (*page_end)(void *pen);
    void (*surface_end)(void *surface);
    int (*surface_status)(void *surface);
    void (*surface_free)(void *surface);
} lib;

static const struct {
    const char *name;
    void *place;
} calls[] = {
    { "rsvg_handle_new_from_data", &lib.svg_new },
    { "rsvg_handle_render_document", &lib.svg_draw },
    { "g_object_unref", &lib.object_free },
    { "cairo_pdf_surface_create_for_stream", &lib.pdf_new },
    { "cairo_pdf_surface_set_size", &lib.pdf_size },
    { "cairo_pdf_surface_set_metadata", &lib.pdf_say },
    { "cairo_image_surface_create", &lib.image_new },
    { "cairo_surface_write_to_png_stream", &lib.image_put },
    { "cairo_create", &lib.pen_new },
    { "cairo_status", &lib.pen_status },
    { "cairo_set_source_rgb", &lib.pen_colour },
    { "cairo_paint", &lib.pen_fill },
    { "cairo_destroy", &lib.pen_free },
    { "cairo_show_page", &lib.page_end },
    { "cairo_surface_finish", &lib.surface_end },
    { "cairo_surface_status", &lib.surface_status },
    { "cairo_surface_destroy", &lib.surface_free }
};

int render_ask(void)
{
    void *library = dlopen(LIBRARY, RTLD_NOW | RTLD_LOCAL);

    if (library == NULL) {
        complain("PDF and PNG are made by librsvg, which is not there: install "
                 "librsvg2-2 and fonts-dejavu-core, or take SVG or --html");
        return TROUBLE;
    }
    for (size_t i = 0; i < sizeof calls / sizeof calls[0]; i++) {
        void *call = dlsym(library, calls[i].name);

        if (call == NULL) {
            complain("PDF and PNG: " LIBRARY " has no %s", calls[i].name);
            return TROUBLE;
        }
        memcpy(calls[i].place, &call, sizeof call);
    }
    return DONE;
}

static int keep(void *buffer, const unsigned char *bytes, unsigned length)
{
    enum { NO_MEMORY = 1 };

    return buffer_put(buffer, bytes, length) == 0 ? SUCCESS : NO_MEMORY;
}

/* Draws a sheet at its size times `unit`: 0, or -1. */
static int draw_sheet(void *pen, const struct sheet_text *s, double unit)
{
    struct rectangle where = { 0, 0, s->width * unit, s->height * unit };
    void *error = NULL;
    void *svg = lib.svg_new((const uint8_t *)s->bytes, s->length, &error);
    int done;

    if (svg == NULL)
        return -1;
    done = lib.svg_draw(svg, pen, &where, &error) &&
           lib.pen_status(pen) == SUCCESS;
    lib.object_free(svg);
    return done ? 0 : -1;
}

static int failed(void)
{
    complain("the sheet could not be drawn");
    return TROUBLE;
}

static int draw_pages(void *surface, const struct sheet_text *sheets,
                      size_t count)
{
    double unit = points_an_inch / inch;
    void *pen = lib.pen_new(surface);
    int done = 0;

    for (size_t i = 0; i < count && done == 0; i++) {
        lib.pdf_size(surface, sheets[i].width * unit, sheets[i].height * unit);
        done = draw_sheet(pen, &sheets[i], unit);
        lib.page_end(pen);
    }
    lib.pen_free(pen);
    return done;
}

int render_pdf(const struct picture *p, const struct sheet_text *sheets,
               size_t count)
{
    struct buffer out = { NULL, 0, 0 };
    char day[DAY_ROOM];
    double unit = points_an_inch / inch;
    void *surface = lib.pdf_new(keep, &out, sheets[0].width * unit,
                                sheets[0].height * unit);
    int done;

    day_show(day);
    lib.pdf_say(surface, META_TITLE, p->title);
    lib.pdf_say(surface, META_DATE, day);
    done = draw_pages(surface, sheets, count);
    lib.surface_end(surface);
    if (lib.surface_status(surface) != SUCCESS)
        done = -1;
    lib.surface_free(surface);
    if (done == 0)
        fwrite(out.bytes, 1, out.length, stdout);
    buffer_free(&out);
    return done == 0 ? DONE : failed();
}

/* ---- PNG, with the size of its dots ---- */

static uint32_t crc_of(const uint8_t *bytes, size_t length)
{
    uint32_t crc = UINT32_MAX;

    for (size_t i = 0; i < length; i++) {
        crc ^= bytes[i];
        for (int bit = 0; bit < 8; bit++)
            crc = crc & 1 ? crc >> 1 ^ UINT32_C(0xEDB88320) : crc >> 1;
    }
    return ~crc;
}

static void put_number(uint8_t *to, uint32_t number)
{
    for (int i = 0; i < 4; i++)
        to[i] = (uint8_t)(number >> (24 - 8 * i));
}

/* The chunk pHYs goes after the first one, IHDR. */
static void put_png(const struct buffer *png)
{
    enum { HEAD = 8 + 25, BODY = 9 };
    uint8_t chunk[8 + BODY + 4] = { 0, 0, 0, BODY, 'p', 'H', 'Y', 's' };
    uint32_t dots = (uint32_t)(dots_an_inch / inch * 1000 + 0.5);

    put_number(chunk + 8, dots);
    put_number(chunk + 12, dots);
    chunk[16] = 1; /* of a metre */
    put_number(chunk + 8 + BODY, crc_of(chunk + 4, 4 + BODY));
    fwrite(png->bytes, 1, HEAD, stdout);
    fwrite(chunk, 1, sizeof chunk, stdout);
    fwrite(png->bytes + HEAD, 1, png->length - HEAD, stdout);
}

int render_png(const struct sheet_text *sheet)
{
    double unit = dots_an_inch / inch;
    struct buffer out = { NULL, 0, 0 };
    void *surface = lib.image_new(RGB24, (int)ceil(sheet->width * unit),
                                  (int)ceil(sheet->height * unit));
    void *pen = lib.pen_new(surface);
    int done;

    lib.pen_colour(pen, 1, 1, 1); /* the last dots may be half a sheet's */
    lib.pen_fill(pen);
    done = draw_sheet(pen, sheet, unit);
    lib.pen_free(pen);
    if (done == 0 && lib.image_put(surface, keep, &out) != SUCCESS)
        done = -1;
    lib.surface_free(surface);
    if (done == 0)
        put_png(&out);
    buffer_free(&out);
    return done == 0 ? DONE : failed();
}
