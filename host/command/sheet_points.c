/* What the browser's page knows of a plan's points: their texts, what became of
 * them, and their history, as the log beside the file has it. */
#include "log_file.h"
#include "plan.h"
#include "utf8.h"

#include <stdlib.h>
#include <string.h>

/* ---- JSON within HTML ---- */

static void put_character(const uint8_t *at, size_t used, uint32_t c)
{
    if (used == 0)
        fputs("\\ufffd", stdout);
    else if (*at == '"' || *at == '\\')
        printf("\\%c", *at);
    else if (c < 32 || c == '<' || c == '>' || c == '&' || c == 127)
        printf("\\u%04lx", (unsigned long)c);
    else
        fwrite(at, 1, used, stdout);
}

static void put_string(const void *bytes, size_t length)
{
    const uint8_t *at = bytes;

    putchar('"');
    while (length > 0) {
        uint32_t c = 0;
        size_t used = utf8_read(at, length, &c);

        put_character(at, used, c);
        used = used > 0 ? used : 1;
        at += used;
        length -= used;
    }
    putchar('"');
}

static void put_piece(struct piece p)
{
    put_string(p.bytes, p.length);
}

/* ---- history ---- */

/* What the log says of each point of the site: strings, one after the
 * other, each with a zero byte. */
struct histories {
    struct buffer *of;
};

static int put_text(struct buffer *to, const struct buffer *text,
                    enum log_kind kind)
{
    if (kind == LOG_ABSENT)
        return buffer_put(to, "not there", 9);
    if (kind == LOG_NONE)
        return buffer_put(to, "no text", 7);
    return buffer_put(to, text->bytes, strlen((char *)text->bytes));
}

/* "2026-11-17T09:30:00Z, maria@office: BEFORE -> AFTER" */
static int put_entry(struct buffer *to, const struct log_entry *e,
                     const struct log_point *p)
{
    return buffer_put(to, e->when.bytes, e->when.length) |
           buffer_put(to, ", ", 2) |
           buffer_put(to, e->who.bytes, strlen((char *)e->who.bytes)) |
           buffer_put(to, ": ", 2) |
           put_text(to, &p->text[0], p->kind[0]) |
           buffer_put(to, " -> ", 4) |
           put_text(to, &p->text[1], p->kind[1]) | buffer_put_byte(to, 0);
}

/* The entry's points, at those that the plan has. */
static void take_entry(struct histories *h, const struct plan *p,
                       const struct log_entry *e)
{
    struct piece rest = e->points;
    struct log_point point;
    int more;

    memset(&point, 0, sizeof point);
    while ((more = log_point_next(&rest, &point)) != 0) {
        const struct spot *s = more < 0 ? NULL
            : site_find(&p->now, point.name.bytes, point.name.length);

        if (s != NULL)
            put_entry(&h->of[s - p->now.spots], e, &point);
    }
    log_point_free(&point);
}

/* A log that is not there, or not whole, is as if it ended there: what is wrong
 * with it, bhtf log says. */
static void take_log(struct histories *h, const struct plan *p)
{
    struct log_reader reader;
    struct log_entry e;
    char *path = log_path(p->o->word[0]);

    memset(&reader, 0, sizeof reader);
    if (path != NULL && log_open(&reader, path) > 0) {
        while (log_next(&reader, &e)) {
            take_entry(h, p, &e);
            log_entry_free(&e);
        }
        log_entry_free(&e);
    }
    log_close(&reader);
    free(path);
}

static void put_history(const struct buffer *h)
{
    const char *between = ",\"log\":[";

    for (size_t at = 0; at < h->length;) {
        size_t length = strlen((const char *)h->bytes + at);

        fputs(between, stdout);
        put_string(h->bytes + at, length);
        between = ",";
        at += length + 1;
    }
    if (h->length > 0)
        putchar(']');
}

/* ---- points ---- */

static void put_name(const struct spot *s)
{
    struct buffer name = { NULL, 0, 0 };

    fputs("{\"name\":", stdout);
    if (spot_show(&name, s) == 0)
        put_string(name.bytes, strlen((char *)name.bytes));
    else
        fputs("\"\"", stdout);
    buffer_free(&name);
}

static void put_fields(const struct spot *s)
{
    struct record record;
    struct piece fields[POINT_FIELDS];

    memset(&record, 0, sizeof record);
    if (has_coordinates(s) && point_take(&record, s->text, fields)) {
        for (int i = 0; i < POINT_FIELDS; i++) {
            fputs(i == 0 ? ",\"fields\":[" : ",", stdout);
            put_piece(fields[i]);
        }
        putchar(']');
    } else if (s->kind == SPOT_OTHER || s->kind == SPOT_EMPTY) {
        fputs(",\"text\":", stdout);
        put_piece(s->text);
    }
    buffer_free(&record.bytes);
}

static void put_mark(const struct plan *p, const struct mark *m,
                     const struct histories *h)
{
    put_name(m->now != NULL ? m->now : m->old);
    if (m->now != NULL)
        put_fields(m->now);
    else
        fputs(",\"gone\":true", stdout);
    if (p->o->against != NULL && m->change != SAME) {
        fputs(",\"became\":", stdout);
        put_string(m->text, strlen(m->text));
    }
    if (m->old != NULL && m->change != SAME) {
        fputs(",\"old\":", stdout);
        put_piece(m->old->text);
    }
    if (m->detail > 0)
        fputs(",\"detail\":true", stdout);
    if (m->now != NULL && h->of != NULL)
        put_history(&h->of[m->now - p->now.spots]);
    putchar('}');
}

/* Points that have no place come after the marks. */
static void put_others(const struct plan *p, const struct histories *h)
{
    for (size_t i = 0; i < p->now.count; i++) {
        const struct spot *s = &p->now.spots[i];

        if (s->kind == SPOT_PLACED)
            continue;
        fputs(",\n", stdout);
        put_name(s);
        put_fields(s);
        if (h->of != NULL)
            put_history(&h->of[i]);
        putchar('}');
    }
}

void plan_points_put(const void *plan)
{
    const struct plan *p = plan;
    struct histories h = { calloc(p->now.count + 1, sizeof *h.of) };

    if (h.of != NULL)
        take_log(&h, p);
    putchar('[');
    for (size_t i = 0; i < p->count; i++) {
        fputs(i == 0 ? "\n" : ",\n", stdout);
        put_mark(p, &p->marks[i], &h);
    }
    put_others(p, &h);
    fputs("\n]", stdout);
    for (size_t i = 0; h.of != NULL && i < p->now.count; i++)
        buffer_free(&h.of[i]);
    free(h.of);
}
