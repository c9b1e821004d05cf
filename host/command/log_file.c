/* FILE.log beside a file: reading it. */
#include "log_file.h"

#include "complain.h"
#include "quoted.h"

#include <errno.h>
#include <stdlib.h>
#include <string.h>

char *log_path(const char *file)
{
    char *path = malloc(strlen(file) + 5);

    if (path != NULL) {
        strcpy(path, file);
        strcat(path, ".log");
    }
    return path;
}

void sum_show(char digits[SUM_DIGITS + 1], const uint8_t *bytes,
              size_t length)
{
    uint8_t sum[BHTF_SUM];

    bhtf_sum(bytes, length, sum);
    for (size_t i = 0; i < BHTF_SUM; i++)
        sprintf(digits + 2 * i, "%02x", sum[i]);
}

int log_open(struct log_reader *r, const char *path)
{
    FILE *file = fopen(path, "r");
    int done;

    memset(r, 0, sizeof *r);
    memset(r->sum, '0', SUM_DIGITS);
    if (file == NULL && errno == ENOENT)
        return 0;
    if (file == NULL) {
        complain("%s: cannot open: %s", path, strerror(errno));
        return -1;
    }
    done = buffer_read(&r->bytes, file, SIZE_MAX / 2);
    if (done != 0)
        complain("%s: cannot be read: %s", path, strerror(errno));
    fclose(file);
    return done == 0 ? 1 : -1;
}

void log_close(struct log_reader *r)
{
    buffer_free(&r->bytes);
}

void log_entry_free(struct log_entry *e)
{
    buffer_free(&e->who);
    buffer_free(&e->command);
}

/* ---- lines ---- */

/* The next whole line; 0 if there is none. */
static int take_line(struct log_reader *r, struct piece *line)
{
    const uint8_t *end;

    line->bytes = r->bytes.bytes + r->at;
    line->length = r->bytes.length - r->at;
    end = line->length == 0 ? NULL : memchr(line->bytes, '\n', line->length);
    if (end == NULL)
        return 0;
    line->length = (size_t)(end - line->bytes);
    r->at += line->length + 1;
    r->line++;
    return 1;
}

/* Takes a word and the blank after it off a line: 1 if it begins so. */
static int take(struct piece *line, const char *word)
{
    size_t length = strlen(word);

    if (line->length < length || memcmp(line->bytes, word, length) != 0)
        return 0;
    line->bytes += length;
    line->length -= length;
    return 1;
}

/* Reads quoted text, and ends it with a zero byte: 1, or 0. */
static int take_quoted(struct piece *line, struct buffer *to)
{
    const char *wrong;
    const uint8_t *end = line->bytes + line->length;
    const uint8_t *at = quoted_take(to, line->bytes, end, &wrong);

    if (at == NULL || buffer_put_byte(to, '\0') != 0)
        return 0;
    to->length--;
    line->bytes = at;
    line->length = (size_t)(end - at);
    return 1;
}

static int take_sum(struct log_reader *r, const char *word, char *sum)
{
    struct piece line;

    if (!take_line(r, &line) || !take(&line, word) ||
        line.length != SUM_DIGITS)
        return 0;
    memcpy(sum, line.bytes, SUM_DIGITS);
    sum[SUM_DIGITS] = '\0';
    return 1;
}

static int take_number(struct piece *line, unsigned long *number)
{
    *number = 0;
    while (line->length > 0 && line->bytes[0] >= '0' &&
           line->bytes[0] <= '9') {
        *number = *number * 10 + (unsigned long)(line->bytes[0] - '0');
        line->bytes++;
        line->length--;
    }
    return *number > 0 && take(line, " ");
}

/* ---- entries ---- */

static int take_head(struct log_reader *r, struct log_entry *e)
{
    struct piece line;
    const uint8_t *blank;

    e->line = r->line + 1;
    if (!take_line(r, &line) || !take(&line, "change ") ||
        !take_number(&line, &e->number))
        return 0;
    blank = memchr(line.bytes, ' ', line.length);
    if (blank == NULL)
        return 0;
    e->when.bytes = line.bytes;
    e->when.length = (size_t)(blank - line.bytes);
    line.bytes += e->when.length + 1;
    line.length -= e->when.length + 1;
    return take_quoted(&line, &e->who) && take(&line, " ") &&
           take_quoted(&line, &e->command) && line.length == 0;
}

/* The lines of points, up to the sum. */
static int take_points(struct log_reader *r, struct log_entry *e)
{
    struct piece line;
    size_t start = r->at, before;

    do {
        before = r->at;
        if (!take_line(r, &line))
            return 0;
    } while (line.length > 0 && line.bytes[0] == '"');
    r->at = before;
    r->line--;
    e->points.bytes = r->bytes.bytes + start;
    e->points.length = before - start;
    return 1;
}

/* The sum that an entry should have. */
static int sum_of(const struct log_reader *r, size_t start, size_t end,
                  char *sum)
{
    struct buffer all = { NULL, 0, 0 };
    int done = buffer_put(&all, r->sum, SUM_DIGITS) |
               buffer_put(&all, r->bytes.bytes + start, end - start);

    if (done == 0)
        sum_show(sum, all.bytes, all.length);
    buffer_free(&all);
    return done;
}

int log_next(struct log_reader *r, struct log_entry *e)
{
    char wanted[SUM_DIGITS + 1] = "", sum[SUM_DIGITS + 1];
    struct piece line;
    size_t start;

    memset(e, 0, sizeof *e);
    if (r->at == 0 && (!take_line(r, &line) || !take(&line, "bhtf-log 1") ||
                       line.length != 0)) {
        r->wrong = "it does not begin with bhtf-log 1";
        return 0;
    }
    start = r->at;
    if (start == r->bytes.length)
        return 0;
    r->wrong = "an entry is cut short, or is none";
    if (!take_head(r, e) || !take_sum(r, "from ", e->from) ||
        !take_sum(r, "to ", e->to) || !take_points(r, e) ||
        sum_of(r, start, r->at, wanted) != 0 || !take_sum(r, "sum ", sum))
        return 0;
    r->wrong = NULL;
    e->sound = strcmp(wanted, sum) == 0 && e->number == r->number + 1;
    r->number = e->number;
    strcpy(r->sum, sum);
    return 1;
}

/* ---- points ---- */

static int take_text(struct piece *line, struct buffer *text,
                     enum log_kind *kind)
{
    text->length = 0;
    if (take(line, "absent")) {
        *kind = LOG_ABSENT;
        return 1;
    }
    if (take(line, "none")) {
        *kind = LOG_NONE;
        return 1;
    }
    *kind = LOG_TEXT;
    return take_quoted(line, text);
}

int log_point_next(struct piece *points, struct log_point *p)
{
    const uint8_t *end = points->length == 0
        ? NULL : memchr(points->bytes, '\n', points->length);
    struct piece line;

    if (end == NULL)
        return points->length == 0 ? 0 : -1;
    line.bytes = points->bytes;
    line.length = (size_t)(end - points->bytes);
    points->bytes += line.length + 1;
    points->length -= line.length + 1;
    p->name.length = 0;
    return take_quoted(&line, &p->name) && take(&line, " ") &&
           take_text(&line, &p->text[0], &p->kind[0]) && take(&line, " ") &&
           take_text(&line, &p->text[1], &p->kind[1]) && line.length == 0
        ? 1 : -1;
}

void log_point_free(struct log_point *p)
{
    buffer_free(&p->name);
    buffer_free(&p->text[0]);
    buffer_free(&p->text[1]);
}
