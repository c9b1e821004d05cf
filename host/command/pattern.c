/* Patterns for names, as shells have them.
 *
 * A pattern is read in three steps: its bytes, with those that were quoted
 * known; its characters; and its parts. Names are compared character by
 * character. */
#include "pattern.h"

#include "utf8.h"

#include <string.h>

enum kind { LITERAL, ONE, ANY, CLASS };

struct part {
    enum kind kind;
    int other;       /* of a class: any character but these */
    uint32_t code;   /* of a literal */
    size_t from;     /* of a class: its ranges */
    size_t to;
};

struct range {
    uint32_t first;
    uint32_t last;
};

/* A character of the pattern. */
struct letter {
    uint32_t code;
    int quoted;      /* it stands for itself */
};

/* A byte that is no UTF-8 is a character of its own. */
static const uint32_t stray = 0x80000000u;

static uint32_t next_code(const uint8_t *at, size_t left, size_t *used)
{
    uint32_t code = 0;

    *used = utf8_read(at, left, &code);
    if (*used > 0)
        return code;
    *used = 1;
    return stray | *at;
}

/* ---- bytes and characters ---- */

static int hex(int c)
{
    if (c >= '0' && c <= '9')
        return c - '0';
    if (c >= 'a' && c <= 'f')
        return c - 'a' + 10;
    return c >= 'A' && c <= 'F' ? c - 'A' + 10 : -1;
}

/* The byte that begins at `at`, and whether it was quoted; *used characters
 * were typed for it. */
static uint8_t next_byte(const char *at, size_t *used, uint8_t *quoted)
{
    *quoted = 1;
    if (at[0] == '\\' && at[1] == 'x' && hex(at[2]) >= 0 && hex(at[3]) >= 0) {
        *used = 4;
        return (uint8_t)(hex(at[2]) * 16 + hex(at[3]));
    }
    *used = 2;
    if (at[0] == '\\' && at[1] != '\0' && strchr("*?[]", at[1]) != NULL)
        return (uint8_t)at[1];
    *used = 1;
    *quoted = 0;
    return (uint8_t)at[0];
}

static int read_bytes(struct buffer *bytes, struct buffer *quoted,
                      const char *typed)
{
    while (*typed != '\0') {
        size_t used;
        uint8_t mark;
        uint8_t byte = next_byte(typed, &used, &mark);

        if (buffer_put_byte(bytes, byte) != 0 ||
            buffer_put_byte(quoted, mark) != 0)
            return -1;
        typed += used;
    }
    return 0;
}

static int read_letters(struct buffer *letters, const struct buffer *bytes,
                        const struct buffer *quoted)
{
    size_t used;

    for (size_t i = 0; i < bytes->length; i += used) {
        struct letter l;

        l.code = next_code(bytes->bytes + i, bytes->length - i, &used);
        l.quoted = quoted->bytes[i];
        if (buffer_put(letters, &l, sizeof l) != 0)
            return -1;
    }
    return 0;
}

/* ---- parts ---- */

static int is_sign(const struct letter *l, const struct letter *end, char sign)
{
    return l < end && !l->quoted && l->code == (uint32_t)sign;
}

/* The letter ] that closes the bracket at `at`, or `end`. As the first of its
 * characters it stands for itself. */
static const struct letter *closing(const struct letter *at,
                                    const struct letter *end)
{
    at++;
    if (is_sign(at, end, '!') || is_sign(at, end, '^'))
        at++;
    if (is_sign(at, end, ']'))
        at++;
    while (at < end && !is_sign(at, end, ']'))
        at++;
    return at < end ? at : end;
}

/* The ranges from `at` up to the closing bracket. */
static int put_ranges(struct pattern *p, const struct letter *at,
                      const struct letter *close)
{
    while (at < close) {
        struct range r = { at->code, at->code };

        if (close - at >= 3 && is_sign(at + 1, close, '-')) {
            r.last = at[2].code;
            at += 2;
        }
        if (buffer_put(&p->ranges, &r, sizeof r) != 0)
            return -1;
        at++;
    }
    return 0;
}

static int put_class(struct pattern *p, const struct letter *at,
                     const struct letter *close)
{
    struct part part = { CLASS, 0, 0, 0, 0 };

    at++;
    part.other = is_sign(at, close, '!') || is_sign(at, close, '^');
    part.from = p->ranges.length / sizeof(struct range);
    if (put_ranges(p, at + part.other, close) != 0)
        return -1;
    part.to = p->ranges.length / sizeof(struct range);
    return buffer_put(&p->parts, &part, sizeof part);
}

static int put_part(struct pattern *p, enum kind kind, uint32_t code)
{
    struct part part = { LITERAL, 0, 0, 0, 0 };

    part.kind = kind;
    part.code = code;
    p->wild |= kind != LITERAL;
    return buffer_put(&p->parts, &part, sizeof part);
}

static int put_parts(struct pattern *p, const struct letter *at,
                     const struct letter *end)
{
    int done = 0;

    for (; at < end && done == 0; at++) {
        const struct letter *close = is_sign(at, end, '[') ? closing(at, end)
                                                           : end;

        if (close < end) {
            done = put_class(p, at, close);
            p->wild = 1;
            at = close;
        } else if (is_sign(at, end, '*')) {
            done = put_part(p, ANY, 0);
        } else {
            done = put_part(p, is_sign(at, end, '?') ? ONE : LITERAL,
                            at->code);
        }
    }
    return done;
}

int pattern_make(struct pattern *p, const char *typed)
{
    struct buffer bytes = { NULL, 0, 0 }, quoted = { NULL, 0, 0 };
    struct buffer letters = { NULL, 0, 0 };
    int done;

    memset(p, 0, sizeof *p);
    done = read_bytes(&bytes, &quoted, typed);
    if (done == 0)
        done = read_letters(&letters, &bytes, &quoted);
    if (done == 0 && letters.length > 0) {
        const struct letter *first = (const struct letter *)letters.bytes;

        done = put_parts(p, first, first + letters.length / sizeof *first);
    }
    buffer_free(&bytes);
    buffer_free(&quoted);
    buffer_free(&letters);
    return done;
}

void pattern_free(struct pattern *p)
{
    buffer_free(&p->parts);
    buffer_free(&p->ranges);
}

/* ---- names ---- */

static int in_class(const struct pattern *p, const struct part *part,
                    uint32_t code)
{
    const struct range *all = (const struct range *)p->ranges.bytes;

    for (size_t i = part->from; i < part->to; i++)
        if (all[i].first <= code && code <= all[i].last)
            return !part->other;
    return part->other;
}

/* Does a part other than * take this character? */
static int takes(const struct pattern *p, const struct part *part,
                 uint32_t code)
{
    if (part->kind == CLASS)
        return in_class(p, part, code);
    return part->kind == ONE || (part->kind == LITERAL && part->code == code);
}

/* The last * takes one character more each time what follows it does not fit;
 * an earlier one never has to. */
int pattern_matches(const struct pattern *p, const uint8_t *name,
                    size_t length)
{
    const struct part *part = (const struct part *)p->parts.bytes;
    size_t count = p->parts.length / sizeof *part;
    size_t at = 0, next = 0, star = count, back = 0;

    while (at < length) {
        size_t used;
        uint32_t code = next_code(name + at, length - at, &used);

        if (next < count && part[next].kind == ANY) {
            star = next++;
            back = at;
        } else if (next < count && takes(p, &part[next], code)) {
            next++;
            at += used;
        } else if (star < count) {
            next_code(name + back, length - back, &used);
            back += used;
            at = back;
            next = star + 1;
        } else {
            return 0;
        }
    }
    while (next < count && part[next].kind == ANY)
        next++;
    return next == count;
}
