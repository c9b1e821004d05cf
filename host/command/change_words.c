/* What became of a point: from one text to another. */
#include "change_words.h"

#include "complain.h"
#include "quoted.h"
#include "typed.h"

#include <math.h>
#include <stdio.h>
#include <string.h>

/* Bytes of a text that are shown in a message. */
enum { TEXT_SHOWN = 80 };

static const char *const lost_words[POINT_FIELDS + 1] = {
    "easting", "northing", "height", "note", "text"
};

/* A text in its fields. */
struct parts {
    struct record record;
    struct piece fields[POINT_FIELDS];
    int are;         /* it is of fields */
    int any;         /* there is a text, and it is not empty */
};

static void parts_of(struct parts *p, const struct piece *text)
{
    const struct piece none = { (const uint8_t *)"", 0 };
    struct piece fields[POINT_FIELDS] = { none, none, none, none };

    memset(p, 0, sizeof *p);
    p->any = text != NULL && text->length > 0;
    p->are = p->any && point_fields(&p->record, *text, fields);
    for (int i = 0; i < POINT_FIELDS; i++)
        p->fields[i] = p->are ? fields[i] : none;
}

/* ---- what is lost ---- */

static unsigned lost_of(const struct parts *old, const struct parts *now)
{
    unsigned lost = 0;

    if (!old->any || (!old->are && !now->are && now->any))
        return 0;
    if (!old->are)
        return LOST_TEXT;
    for (int i = 0; i < POINT_FIELDS; i++)
        if (old->fields[i].length > 0 &&
            (!now->are || now->fields[i].length == 0))
            lost |= LOST(i);
    return lost;
}

static int put_words(struct buffer *to, const char *words)
{
    return buffer_put(to, words, strlen(words));
}

/* In quotes; of a long text its beginning, and two points. */
static int put_quoted(struct buffer *to, struct piece text)
{
    size_t shown = text.length;

    if (shown > TEXT_SHOWN) {
        shown = TEXT_SHOWN;
        while (shown > 0 && (text.bytes[shown] & 0xC0) == 0x80)
            shown--;
    }
    return quoted_put(to, text.bytes, shown) |
           put_words(to, shown < text.length ? ".." : "");
}

int lost_put(struct buffer *to, unsigned lost, struct piece old)
{
    struct parts p;
    int done = 0, first = 1;

    parts_of(&p, &old);
    for (int i = 0; i <= POINT_FIELDS; i++) {
        const struct piece value = i < POINT_FIELDS ? p.fields[i] : old;

        if (!(lost & LOST(i)))
            continue;
        done |= put_words(to, first ? "" : ", ");
        done |= put_words(to, lost_words[i]);
        done |= buffer_put_byte(to, ' ');
        done |= i < NOTE ? buffer_put(to, value.bytes, value.length)
                         : put_quoted(to, value);
        first = 0;
    }
    buffer_free(&p.record.bytes);
    return done == 0 ? 0 : -1;
}

int drop_put(struct buffer *to, unsigned lost)
{
    int done = 0, first = 1;

    for (int i = 0; i <= POINT_FIELDS; i++) {
        if (!(lost & LOST(i)))
            continue;
        done |= put_words(to, first ? "" : ",");
        done |= put_words(to, lost_words[i]);
        first = 0;
    }
    return done == 0 ? 0 : -1;
}

static unsigned drop_bit(const char *word, size_t length)
{
    for (int i = 0; i <= POINT_FIELDS; i++)
        if (same_word((const uint8_t *)word, length, lost_words[i]))
            return LOST(i);
    return 0;
}

int drop_read(const char *words, unsigned *bits)
{
    *bits = 0;
    while (words != NULL && *words != '\0') {
        size_t length = strcspn(words, ",");
        unsigned bit = drop_bit(words, length);

        if (bit == 0) {
            complain("--drop takes words out of easting, northing, height, "
                     "note and text, with commas between them, and not %.*s",
                     (int)(length > 60 ? 60 : length), words);
            return -1;
        }
        *bits |= bit;
        words += length + (words[length] == ',');
    }
    return 0;
}

/* ---- what changed ---- */

/* How far the point moved is reckoned for all commands in one place. */
static void measure(struct text_change *c, struct texts t)
{
    struct record record;
    struct spot old, now;

    memset(&record, 0, sizeof record);
    spot_of_text(&old, &record, t.old);
    spot_of_text(&now, &record, t.now);
    c->placed = old.kind == SPOT_PLACED && now.kind == SPOT_PLACED;
    c->levelled = has_coordinates(&old) && has_coordinates(&now) &&
                  old.has_height && now.has_height;
    if (has_coordinates(&old) && has_coordinates(&now))
        c->move = spot_move(&old, &now);
    buffer_free(&record.bytes);
}

static int moves(const struct text_change *c)
{
    return c->move.all >= MOVE_LEAST;
}

static int same_text(const struct piece *a, const struct piece *b)
{
    if (a == NULL || b == NULL)
        return a == b;
    return same_piece(*a, *b);
}

static enum change_kind kind_of(const struct text_change *c, struct texts t)
{
    if (!t.was_there)
        return CHANGE_NEW;
    if (same_text(t.old, t.now))
        return CHANGE_NONE;
    if (c->lost != 0)
        return CHANGE_LOST;
    return moves(c) ? CHANGE_MOVED : CHANGE_TEXT;
}

struct text_change change_of(struct texts t)
{
    struct text_change c = { CHANGE_NONE, 0, { 0, 0, 0, 0, 0 }, 0, 0 };
    struct parts old, now;

    parts_of(&old, t.old);
    parts_of(&now, t.now);
    c.lost = lost_of(&old, &now);
    measure(&c, t);
    c.kind = kind_of(&c, t);
    buffer_free(&old.record.bytes);
    buffer_free(&now.record.bytes);
    return c;
}

/* ---- words ---- */

static int put_move(struct buffer *to, const struct text_change *c)
{
    char plan[64] = "", height[64] = "";

    if (c->placed && c->move.plane >= MOVE_LEAST)
        snprintf(plan, sizeof plan, "plan %.1f mm", c->move.plane);
    if (c->levelled && fabs(c->move.height) >= MOVE_LEAST)
        snprintf(height, sizeof height, "height %+.1f mm",
                 c->move.height);
    if (plan[0] != '\0' && height[0] != '\0')
        return put_words(to, plan) | put_words(to, ", ") |
               put_words(to, height);
    return put_words(to, plan) | put_words(to, height);
}

static int put_value(struct buffer *to, struct piece value, int quoted)
{
    if (value.length == 0)
        return put_words(to, "none");
    return quoted ? put_quoted(to, value)
                  : buffer_put(to, value.bytes, value.length);
}

/* "height none -> 489.3", of each field that differs and is not in the move. */
static int put_fields(struct buffer *to, const struct text_change *c,
                      const struct parts *old, const struct parts *now)
{
    int done = 0;
    int first = to->length == 0;

    for (int i = 0; i < POINT_FIELDS; i++) {
        int moved = moves(c) && (i == HEIGHT ? c->levelled
                                             : i < HEIGHT && c->placed);

        if (moved || same_piece(old->fields[i], now->fields[i]))
            continue;
        done |= put_words(to, first ? "" : ", ");
        done |= put_words(to, point_words[i]);
        done |= buffer_put_byte(to, ' ');
        done |= put_value(to, old->fields[i], i == NOTE);
        done |= put_words(to, " -> ");
        done |= put_value(to, now->fields[i], i == NOTE);
        first = 0;
    }
    return done;
}

static int put_text(struct buffer *to, const struct piece *text)
{
    if (text == NULL)
        return put_words(to, "none");
    return put_quoted(to, *text);
}

static int put_texts(struct buffer *to, struct texts t)
{
    return put_text(to, t.old) | put_words(to, " -> ") | put_text(to, t.now);
}

int change_put(struct buffer *to, const struct text_change *c, struct texts t)
{
    struct buffer words = { NULL, 0, 0 };
    struct parts old, now;
    int done;

    parts_of(&old, t.old);
    parts_of(&now, t.now);
    done = moves(c) && t.was_there ? put_move(&words, c) : 0;
    if ((old.are || !old.any) && (now.are || !now.any) && t.old != NULL &&
        t.now != NULL)
        done |= put_fields(&words, c, &old, &now);
    else
        done |= put_texts(&words, t);
    if (words.length == 0)
        done |= put_words(&words, "the same, written differently");
    done |= buffer_put(to, words.bytes, words.length);
    buffer_free(&words);
    buffer_free(&old.record.bytes);
    buffer_free(&now.record.bytes);
    return done == 0 ? 0 : -1;
}
