/* import: the points of an input into a file.
 *
 * All points are known before the first is stored: names that stand twice are
 * found then, and what their places are is judged before anything is
 * committed. */
#include "import.h"

#include "epoch.h"

#include "change_words.h"
#include "command_limits.h"
#include "image_header.h"

#include <math.h>
#include <stdlib.h>
#include <string.h>

struct target import_target(const struct import *m)
{
    struct target to;
    int dry = import_is_dry(m);

    to.image = dry ? m->copy.bytes : m->image.bytes;
    to.length = dry ? m->copy.length : m->image.length;
    to.file = dry ? NULL : m->image.file;
    return to;
}

static struct piece text_of(const struct import *m, const struct incoming *p)
{
    struct piece text;

    text.bytes = m->crowd.bytes.bytes + p->text;
    text.length = p->text_end - p->text;
    return text;
}

/* The key of a point: 0, or -1 for no memory. */
static int take_key(struct import *m, const struct incoming *p)
{
    const uint8_t *name = m->crowd.bytes.bytes + p->name;
    size_t length = p->text - p->name;

    if (import_is_dated(m))
        return epoch_key(&m->key, name, length, p->epoch, m->key_size);
    return key_named(&m->key, m->o, name, length, m->key_size);
}

/* Has the key an epoch after its name? */
static int has_epoch(const struct import *m)
{
    return (import_is_dated(m) || m->o->given & OPTION_EPOCH) &&
           m->key_size > EPOCH_SIZE;
}

/* ---- names that stand twice ---- */

/* The keys of a crowd, to be sorted. */
struct named {
    const uint8_t *key;
    size_t index;
};

static size_t named_length;

static int by_key(const void *a, const void *b)
{
    const struct named *x = a, *y = b;
    int order = memcmp(x->key, y->key, named_length);

    if (order != 0)
        return order;
    return (x->index > y->index) - (x->index < y->index);
}

/* Collects the names that can be keys, and these keys one after the other: 0, or
 * -1 for no memory. A name that is too long is refused by the library later. */
static int put_keys(struct import *m, struct buffer *keys,
                    struct named *names, size_t *count)
{
    int done = 0;

    for (size_t i = 0; i < m->crowd.count && done == 0; i++) {
        const struct incoming *p = &m->crowd.all[i];

        done = take_key(m, p);
        if (done != 0 || m->key.length != m->key_size)
            continue;
        names[(*count)++].index = i;
        done = buffer_put(keys, m->key.bytes, m->key_size);
    }
    for (size_t i = 0; i < *count && done == 0; i++)
        names[i].key = keys->bytes + i * m->key_size;
    return done;
}

static int is_same(const struct import *m, const struct incoming *a,
                   const struct incoming *b)
{
    return a->none == b->none && same_piece(text_of(m, a), text_of(m, b));
}

/* Marks each that an earlier line names, by whether it says the same. */
static void mark_twice(struct import *m, const struct named *names,
                       size_t count)
{
    size_t first = 0;

    for (size_t i = 1; i < count; i++) {
        struct incoming *p = &m->crowd.all[names[i].index];

        if (memcmp(names[i].key, names[first].key, m->key_size) != 0)
            first = i;
        else if (is_same(m, p, &m->crowd.all[names[first].index]))
            p->again = 1;
        else
            p->twice = m->crowd.all[names[first].index].line;
    }
}

static int find_twice(struct import *m)
{
    struct buffer keys = { NULL, 0, 0 };
    struct named *names = calloc(m->crowd.count + 1, sizeof *names);
    size_t count = 0;
    int done = names == NULL ? -1 : put_keys(m, &keys, names, &count);

    if (done == 0) {
        named_length = m->key_size;
        qsort(names, count, sizeof *names, by_key);
        mark_twice(m, names, count);
    }
    free(names);
    buffer_free(&keys);
    return done == 0 ? DONE : out_of_memory();
}

/* ---- refusals ---- */

/* The point's name as it stands in the input, with a zero byte. */
static const char *name_of(struct import *m, const struct incoming *p,
                           struct buffer *to)
{
    to->length = 0;
    if (buffer_put(to, m->crowd.bytes.bytes + p->name,
                   p->text - p->name) != 0 || buffer_put_byte(to, '\0') != 0)
        return "?";
    return (const char *)to->bytes;
}

static int refuse_line(struct import *m, const struct incoming *p,
                       uint32_t number, const struct piece *text)
{
    struct buffer name = { NULL, 0, 0 };

    if (p->text == p->name && import_is_told(m))
        complain("%s: there is no name", import_place(m, p->line));
    else if (import_is_told(m))
        refuse_point(import_place(m, p->line), name_of(m, p, &name), number,
                     has_epoch(m) ? m->key_size - EPOCH_SIZE : m->key_size,
                     number == BHTF_NO_ROOM
                         ? room_by_compaction(import_target(m), &m->key, text,
                                              mode_of(m->o)) : 0);
    buffer_free(&name);
    return REFUSED;
}

static int refuse_twice(struct import *m, const struct incoming *p)
{
    struct buffer name = { NULL, 0, 0 };

    if (import_is_told(m))
        complain("%s: %s: stands on line %lu of this input already, with "
                 "another text", import_place(m, p->line),
                 name_of(m, p, &name), p->twice);
    buffer_free(&name);
    return REFUSED;
}

static int refuse_loss(struct import *m, const struct incoming *p,
                       unsigned lost, struct piece old)
{
    struct buffer name = { NULL, 0, 0 }, words = { NULL, 0, 0 };

    m->lost |= lost;
    if (lost_put(&words, lost, old) != 0)
        out_of_memory();
    else if (import_is_told(m))
        complain("%s: %s: refused: --replace would take away %.*s",
                 import_place(m, p->line), name_of(m, p, &name),
                 (int)words.length, (const char *)words.bytes);
    buffer_free(&name);
    buffer_free(&words);
    return REFUSED;
}

static int refuse_other(struct import *m, const struct incoming *p)
{
    struct buffer name = { NULL, 0, 0 };

    if (import_is_told(m))
        complain("%s: %s: refused: its text in the file is not "
                 "easting,northing,height,note; --replace puts another in its "
                 "place", import_place(m, p->line), name_of(m, p, &name));
    buffer_free(&name);
    return REFUSED;
}

/* An answer of the file layer that is no number of the library is not about
 * this line: no other would be stored either. */
static int fail_storing(struct import *m)
{
    m->failed = 1;
    progress_end(&m->progress);
    complain("%s", bhtf_file_error(m->image.file)->words);
    return TROUBLE;
}

/* ---- what becomes of a point ---- */

static int by_harm(const void *a, const void *b)
{
    const struct outcome *x = a, *y = b;

    if (x->kind != y->kind)
        return x->kind - y->kind;
    if (x->harm != y->harm)
        return x->harm > y->harm ? -1 : 1;
    return (x->words > y->words) - (x->words < y->words);
}

static int make_room(struct outcomes *all)
{
    size_t room = all->room == 0 ? 64 : 2 * all->room;
    struct outcome *more;

    if (all->count < all->room)
        return 0;
    more = realloc(all->all, room * sizeof *more);
    if (more == NULL)
        return -1;
    all->all = more;
    all->room = room;
    return 0;
}

/* Keeps what would become of a point: its name, and words. */
static int keep_outcome(struct import *m, const struct text_change *c,
                        struct texts t)
{
    struct outcomes *all = &m->outcomes;
    struct outcome *new;
    int done;

    if (!import_is_dry(m) || c->kind == CHANGE_NONE)
        return DONE;
    if (make_room(all) != 0)
        return out_of_memory();
    new = &all->all[all->count++];
    new->kind = c->kind;
    new->harm = fmax(c->move.plane, fabs(c->move.height));
    new->words = all->bytes.length;
    done = has_epoch(m)
        ? dated_show(&all->bytes, m->key.bytes, m->key_size)
        : name_show(&all->bytes, m->key.bytes, m->key.length);
    if (c->kind != CHANGE_NEW) {
        done |= buffer_put(&all->bytes, ": ", 2);
        done |= change_put(&all->bytes, c, t);
    }
    done |= buffer_put_byte(&all->bytes, '\0');
    return done == 0 ? DONE : out_of_memory();
}

/* The point as it is in the file; *old is NULL if it has no text. */
static int find_old(struct import *m, struct piece *piece,
                    const struct piece **old, uint32_t *number)
{
    const struct target to = import_target(m);
    uint32_t offset, size;

    *number = bhtf_lookup(to.image, to.length, m->key.bytes, m->key.length,
                          &offset, &size);
    m->old.length = 0;
    *old = NULL;
    if (*number != BHTF_ACCEPTED || offset == 0)
        return DONE;
    if (buffer_put(&m->old, to.image + offset, size) != 0)
        return out_of_memory();
    piece->bytes = size == 0 ? (const uint8_t *)"" : m->old.bytes;
    piece->length = size;
    *old = piece;
    return DONE;
}

/* The old text with the fields that are given in place of its own. 1, 0 if the
 * old text has no fields, -1 for no memory. */
static int merge(struct import *m, struct piece old, struct piece given,
                 struct piece *now)
{
    struct piece fields[POINT_FIELDS], over[POINT_FIELDS];
    struct record record;
    int done = 1;

    memset(&record, 0, sizeof record);
    *now = given;
    if (!point_take(&record, given, over)) {
        buffer_free(&record.bytes);
        return 1;
    }
    if (!point_fields(&m->apart, old, fields))
        done = 0;
    for (int i = 0; i < POINT_FIELDS && done == 1; i++)
        if (over[i].length > 0)
            fields[i] = over[i];
    m->merged.length = 0;
    if (done == 1 && point_put(&m->merged, fields) != 0)
        done = -1;
    now->bytes = m->merged.bytes;
    now->length = m->merged.length;
    buffer_free(&record.bytes);
    return done;
}

/* Keeps count of a point that is stored, or would be. */
static int note_stored(struct import *m, const struct incoming *p,
                       struct texts t)
{
    const struct text_change c = change_of(t);

    m->taken++;
    m->fresh += c.kind == CHANGE_NEW;
    m->changed += c.kind < CHANGE_NEW;
    if (c.kind != CHANGE_NONE &&
        movers_put(&m->movers, &m->key, p->line, t.old) != 0)
        return out_of_memory();
    return keep_outcome(m, &c, t);
}

/* Stores what the point is to have, unless it has that. */
static int put(struct import *m, const struct incoming *p, struct texts t)
{
    const struct target to = import_target(m);
    uint32_t mode = t.was_there && mode_of(m->o) == BHTF_NEW &&
                    m->o->given & OPTION_UPDATE ? BHTF_REPLACE
                                                : mode_of(m->o);
    uint32_t number = BHTF_ACCEPTED, read;
    unsigned lost;

    if (t.was_there && change_of(t).kind == CHANGE_NONE)
        return note_stored(m, p, t);
    lost = mode == BHTF_REPLACE && t.old != NULL
        ? change_of(t).lost & ~m->dropped : 0;
    if (lost != 0)
        return refuse_loss(m, p, lost, *t.old);
    number = store(to, &m->key, t.now, mode, &read);
    if (number >= BHTF_FILE_SYSTEM)
        return fail_storing(m);
    if (number != BHTF_ACCEPTED)
        return refuse_line(m, p, number, t.now);
    return note_stored(m, p, t);
}

/* With --update: what is not given stays. */
static int update(struct import *m, const struct incoming *p, struct texts t)
{
    struct piece now;
    int done;

    if (!t.was_there)
        return put(m, p, t);
    if (t.now == NULL || t.old == NULL || t.old->length == 0) {
        if (t.now == NULL)
            t.now = t.old;
        return put(m, p, t);
    }
    done = merge(m, *t.old, *t.now, &now);
    if (done == 0)
        return refuse_other(m, p);
    t.now = &now;
    return done < 0 ? out_of_memory() : put(m, p, t);
}

static int store_point(struct import *m, const struct incoming *p)
{
    const struct piece text = text_of(m, p);
    struct piece old;
    struct texts t = { 0, NULL, p->none ? NULL : &text };
    uint32_t number;
    int status;

    if (p->twice != 0)
        return refuse_twice(m, p);
    if (p->again)
        return DONE;
    if (p->text == p->name && has_epoch(m)) /* else the key is all zero */
        return refuse_line(m, p, BHTF_BAD_KEY, NULL);
    if (take_key(m, p) != 0)
        return out_of_memory();
    status = find_old(m, &old, &t.old, &number);
    if (status != DONE)
        return status;
    t.was_there = number == BHTF_ACCEPTED;
    if (m->o->given & OPTION_UPDATE)
        return update(m, p, t);
    if (t.was_there && mode_of(m->o) == BHTF_NEW)
        return refuse_line(m, p, BHTF_PRESENT, t.now);
    return put(m, p, t);
}

static void say_advice(struct import *m)
{
    struct buffer drop = { NULL, 0, 0 };

    if (m->lost != 0 && drop_put(&drop, m->lost) == 0)
        complain("%s: --update changes only what the lines give; --drop %.*s "
                 "lets --replace take it away", m->input, (int)drop.length,
                 (const char *)drop.bytes);
    buffer_free(&drop);
}

static int store_all(struct import *m)
{
    int status = DONE;

    for (size_t i = 0; i < m->crowd.count && status == DONE && !interrupted;
         i++) {
        const struct incoming *p = &m->crowd.all[i];

        status = store_point(m, p);
        if (import_goes_on(m, status, p->line))
            status = DONE;
        if (i % 256 == 255)
            progress_show(&m->progress, (unsigned long)i + 1, i + 1);
    }
    progress_end(&m->progress);
    say_advice(m);
    return status;
}

static int judge_all(struct import *m)
{
    const struct target to = import_target(m);
    struct judgement j;

    j.file = m->o->word[0];
    j.input = m->input;
    j.before = &m->neighbours;
    j.image = to.image;
    j.length = to.length;
    j.key_size = m->key_size;
    j.dated = has_epoch(m);
    /* A prism's readings stand within a centimetre of each other. */
    j.allowed = m->o->given | (import_is_dated(m) ? OPTION_ALLOW_NEAR : 0);
    return judge(&j, &m->movers);
}

int import_store(struct import *m)
{
    int status = find_twice(m);

    progress_begin(&m->progress, import_is_dry(m) ? "read" : "stored",
                   m->crowd.count, m->o->quiet);
    if (status == DONE)
        status = store_all(m);
    if (status == DONE && !interrupted)
        status = judge_all(m);
    return status;
}

/* ---- what was done ---- */

static const char *plural(unsigned long n)
{
    return n == 1 ? "" : "s";
}

/* In a dry run: each point that would change, the worst first. New ones are
 * named as long as they are few. */
static void print_outcomes(struct import *m)
{
    static const char *const words[] = { "loses", "moved", "text", "new" };
    struct outcomes *all = &m->outcomes;
    size_t new = 0;

    if (all->count > 0)
        qsort(all->all, all->count, sizeof *all->all, by_harm);
    for (size_t i = 0; i < all->count; i++) {
        const struct outcome *one = &all->all[i];

        new += one->kind == CHANGE_NEW;
        if (one->kind != CHANGE_NEW || new <= REFUSALS_SHOWN)
            printf("%-6s %s\n", words[one->kind],
                   (const char *)all->bytes.bytes + one->words);
    }
    if (new > REFUSALS_SHOWN)
        printf("new    and %lu more\n", (unsigned long)(new - REFUSALS_SHOWN));
}

static int refuses_all(const struct import *m, int status)
{
    return status != DONE ||
           (m->refused > 0 && !(m->o->given & OPTION_KEEP_GOING));
}

int import_report_dry(struct import *m, int status)
{
    if (!m->o->quiet) {
        print_outcomes(m);
        printf("%lu point%s would be stored in %s: %lu new, %lu changed, %lu "
               "equal%s\n", m->taken, plural(m->taken), m->o->word[0],
               m->fresh, m->changed, m->taken - m->fresh - m->changed,
               refuses_all(m, status) ? ", if the others were not refused"
                                      : "");
    }
    if (m->refused > 0 && m->o->given & OPTION_KEEP_GOING)
        complain("%s: %lu line%s would be refused, the first is line %lu",
                 m->input, m->refused, plural(m->refused), m->stop_line);
    else if (m->refused > 0)
        complain("%s: %lu line%s would be refused; an import would stop at "
                 "line %lu, with nothing stored, unless --keep-going is given",
                 m->input, m->refused, plural(m->refused), m->stop_line);
    return status == DONE ? m->stop_status : status;
}

static void print_stored(const struct import *m)
{
    if (m->o->given & (OPTION_REPLACE | OPTION_UPDATE))
        printf("%lu point%s stored: %lu new, %lu changed, %lu equal\n",
               m->taken, plural(m->taken), m->fresh, m->changed,
               m->taken - m->fresh - m->changed);
    else
        printf("%lu point%s stored\n", m->taken, plural(m->taken));
}

int import_report(struct import *m, int status)
{
    if (m->image.unsure)
        complain("%s: whether its points are stored in %s is told when that is "
                 "read again", m->input, m->o->word[0]);
    else if (!m->image.committed)
        complain("%s: import stopped: nothing was stored in %s", m->input,
                 m->o->word[0]);
    if (!m->image.committed)
        return status;
    if (status == DONE)
        status = m->stop_status;
    if (m->refused > 0)
        complain("%s: %lu line%s refused, the first is line %lu; the others "
                 "are stored", m->input, m->refused, plural(m->refused),
                 m->stop_line);
    if (!m->o->quiet)
        print_stored(m);
    return status;
}

void import_store_free(struct import *m)
{
    movers_free(&m->movers);
    buffer_free(&m->outcomes.bytes);
    free(m->outcomes.all);
    buffer_free(&m->crowd.bytes);
    free(m->crowd.all);
    buffer_free(&m->old);
    buffer_free(&m->merged);
}
