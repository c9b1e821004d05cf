/* A picture of one sheet or more, and the forms in which it goes out. */
#include "picture.h"

#include <stdarg.h>
#include <stdlib.h>
#include <string.h>
#include <time.h>

FILE *svg_to;

static struct sheet_text *sheets;
static size_t count;

void sketch(const char *format, ...)
{
    va_list values;

    va_start(values, format);
    vfprintf(svg_to, format, values);
    va_end(values);
}

size_t picture_sheets(void)
{
    return count;
}

/* Ends the sheet that was begun last: 0, or -1 for no memory. */
static int end_sheet(void)
{
    int done = svg_to == NULL ? 0 : fclose(svg_to);

    svg_to = NULL;
    return done == 0 && (count == 0 || sheets[count - 1].bytes != NULL) ? 0
                                                                       : -1;
}

int picture_sheet(double width, double height)
{
    struct sheet_text *more;

    if (end_sheet() != 0)
        return -1;
    more = calloc(count + 1, sizeof *more);
    if (more == NULL)
        return -1;
    if (count > 0)
        memcpy(more, sheets, count * sizeof *more);
    free(sheets);
    sheets = more;
    sheets[count].width = width;
    sheets[count].height = height;
    /* The stream keeps both places up to date: they must not move. */
    svg_to = open_memstream(&sheets[count].bytes, &sheets[count].length);
    if (svg_to == NULL)
        return -1;
    count++;
    return 0;
}

static void forget(void)
{
    if (svg_to != NULL)
        fclose(svg_to);
    svg_to = NULL;
    for (size_t i = 0; i < count; i++)
        free(sheets[i].bytes);
    free(sheets);
    sheets = NULL;
    count = 0;
}

static int is_form(const struct options *o, const char *form)
{
    return o->form != NULL && strcmp(o->form, form) == 0;
}

int picture_ask(const struct options *o)
{
    return is_form(o, "--pdf") || is_form(o, "--png") ? render_ask() : DONE;
}

/* The one sheet of a form that holds no more. */
static const struct sheet_text *one_sheet(const struct picture *p)
{
    return &sheets[p->only > 0 && p->only <= count ? p->only - 1 : 0];
}

static int put(const struct options *o, const struct picture *p)
{
    const struct sheet_text *from = p->only > 0 ? one_sheet(p) : sheets;
    size_t some = p->only > 0 ? 1 : count;

    if (is_form(o, "--html")) {
        html_put(p, from, some);
        return DONE;
    }
    if (is_form(o, "--pdf"))
        return render_pdf(p, from, some);
    if (is_form(o, "--png"))
        return render_png(one_sheet(p));
    fwrite(one_sheet(p)->bytes, 1, one_sheet(p)->length, stdout);
    return DONE;
}

int picture_put(const struct options *o, const struct picture *p)
{
    int status = end_sheet() == 0 && count > 0 ? put(o, p) : out_of_memory();

    forget();
    return status;
}

/* ---- the day ---- */

void day_show(char to[DAY_ROOM])
{
    const char *given = getenv("SOURCE_DATE_EPOCH");
    time_t now = given != NULL ? (time_t)strtoll(given, NULL, 10) : time(NULL);
    struct tm day;
    const struct tm *got = given != NULL ? gmtime_r(&now, &day)
                                         : localtime_r(&now, &day);

    if (got == NULL || strftime(to, DAY_ROOM, "%Y-%m-%d", &day) == 0)
        to[0] = '\0';
}
