/* log: the history of a file, or of a point, as the log beside it has it. */
#include "commands.h"

#include "log_file.h"
#include "quoted.h"
#include "utf8.h"

#include <stdlib.h>
#include <string.h>

struct history {
    const struct options *o;
    struct log_reader reader;
    char *path;
    struct buffer name;        /* of the point; empty: all of them */
    char from[SUM_DIGITS + 1]; /* of the last entry */
    char to[SUM_DIGITS + 1];
    unsigned long number;
    int status;
};

/* ---- one entry ---- */

static int put_text(struct buffer *line, const struct buffer *text,
                    enum log_kind kind)
{
    if (kind == LOG_ABSENT)
        return buffer_put(line, "not there", 9);
    if (kind == LOG_NONE)
        return buffer_put(line, "no text", 7);
    return quoted_put(line, text->bytes, text->length);
}

static int print_point(const struct log_point *p)
{
    struct buffer line = { NULL, 0, 0 };
    int done = buffer_put(&line, "  ", 2) |
               name_show(&line, p->name.bytes, p->name.length) |
               buffer_put(&line, ": ", 2) |
               put_text(&line, &p->text[0], p->kind[0]) |
               buffer_put(&line, " -> ", 4) |
               put_text(&line, &p->text[1], p->kind[1]) |
               buffer_put_byte(&line, '\n');

    if (done == 0)
        fwrite(line.bytes, 1, line.length, stdout);
    buffer_free(&line);
    return done == 0 ? DONE : out_of_memory();
}

/* What a log holds may be anything: it is printed as a dump would have it, but
 * without the quotes. */
static void print_safely(const uint8_t *bytes, size_t length)
{
    struct buffer line = { NULL, 0, 0 };

    if (quoted_put(&line, bytes, length) == 0)
        fwrite(line.bytes + 1, 1, line.length - 2, stdout);
    buffer_free(&line);
}

static void print_head(const struct log_entry *e)
{
    printf("%lu  ", e->number);
    print_safely(e->when.bytes, e->when.length);
    fputs("  ", stdout);
    print_safely(e->who.bytes, e->who.length);
    fputs("  ", stdout);
    print_safely(e->command.bytes, e->command.length);
    putchar('\n');
}

static int is_asked(const struct history *h, const struct log_point *p)
{
    return h->name.length == 0 ||
           (h->name.length == p->name.length &&
            memcmp(h->name.bytes, p->name.bytes, p->name.length) == 0);
}

/* Prints an entry, or what it has of the point that is asked for. */
static int print_entry(const struct history *h, const struct log_entry *e)
{
    struct piece rest = e->points;
    struct log_point p;
    int more, head = h->name.length == 0;
    int status = DONE;

    memset(&p, 0, sizeof p);
    if (head)
        print_head(e);
    while (status == DONE && (more = log_point_next(&rest, &p)) != 0) {
        if (more < 0 || !is_asked(h, &p))
            continue;
        if (!head)
            print_head(e);
        head = 1;
        status = print_point(&p);
    }
    log_point_free(&p);
    return status;
}

/* ---- is it whole ---- */

static void say(struct history *h, const char *words, unsigned long number)
{
    complain("%s: entry %lu %s", h->path, number, words);
    h->status = REFUSED;
}

/* Does the entry go on where the last one ended? */
static void ask_entry(struct history *h, const struct log_entry *e)
{
    if (!e->sound)
        say(h, "was changed, or one in front of it was changed or taken away",
            e->number);
    if (h->number > 0 && strcmp(e->from, h->to) != 0) {
        if (strcmp(e->from, h->from) == 0)
            complain("%s: entry %lu was not made: the command was cut short",
                     h->path, h->number);
        else
            say(h, "does not go on where the last one ended: the file was "
                   "changed without the log", e->number);
    }
    strcpy(h->from, e->from);
    strcpy(h->to, e->to);
    h->number = e->number;
}

/* Does the last entry lead to the file as it is? */
static int ask_file(struct history *h)
{
    struct buffer copy = { NULL, 0, 0 };
    char sum[SUM_DIGITS + 1];

    if (h->number == 0)
        return DONE;
    if (image_copy(&copy, h->o->word[0], (unsigned)h->o->wait) != 0)
        return TROUBLE;
    sum_show(sum, copy.bytes, copy.length);
    buffer_free(&copy);
    if (strcmp(sum, h->from) == 0 && strcmp(h->from, h->to) != 0)
        complain("%s: entry %lu was not made: the command was cut short",
                 h->path, h->number);
    else if (strcmp(sum, h->to) != 0)
        say(h, "does not lead to the file as it is: entries are gone behind "
               "it, or the file was changed without the log", h->number);
    return DONE;
}

/* ---- all of it ---- */

static int read_all(struct history *h)
{
    struct log_entry e;
    int status = DONE;

    while (status == DONE && log_next(&h->reader, &e)) {
        ask_entry(h, &e);
        if (!h->o->quiet)
            status = print_entry(h, &e);
        log_entry_free(&e);
    }
    if (status == DONE)
        log_entry_free(&e);
    if (h->reader.wrong != NULL) {
        complain("%s: line %lu: %s", h->path, h->reader.line,
                 h->reader.wrong);
        h->status = REFUSED;
    }
    return status;
}

static int take_name(struct history *h)
{
    struct piece name;

    if (h->o->words < 2)
        return DONE;
    name.bytes = (const uint8_t *)h->o->word[1];
    name.length = strlen(h->o->word[1]);
    name = piece_trim(name);
    return name_read(&h->name, name.bytes, name.length) == 0
        ? DONE : out_of_memory();
}

static int show_history(struct history *h)
{
    int there, status = take_name(h);

    if (status != DONE)
        return status;
    there = log_open(&h->reader, h->path);
    if (there < 0)
        return TROUBLE;
    if (there == 0) {
        complain("%s: there is no log; --log at a change begins one", h->path);
        return REFUSED;
    }
    status = read_all(h);
    fflush(stdout);
    if (status == DONE)
        status = ask_file(h);
    return finish_output(status == DONE ? h->status : status);
}

int run_log(const struct options *o)
{
    struct history h;
    int status;

    memset(&h, 0, sizeof h);
    h.o = o;
    h.path = log_path(o->word[0]);
    status = h.path != NULL ? show_history(&h) : out_of_memory();
    log_close(&h.reader);
    buffer_free(&h.name);
    free(h.path);
    return status;
}
