/* Changes of single points: add, set, rename, withdraw, delete.
 *
 * All of them are made on the image that is open, and committed together. What
 * a point had is kept while it is changed, so that nothing goes that was not
 * named, and its new place can be judged. */
#include "edit.h"

#include "change_words.h"
#include "epoch.h"
#include "image_header.h"
#include "long_work.h"
#include "text_file.h"
#include "utf8.h"

#include <string.h>

/* ---- the file ---- */

int edit_open(struct edit *e, const struct options *o)
{
    uint32_t number;
    int status = DONE;

    memset(e, 0, sizeof *e);
    e->o = o;
    e->place = o->word[0];
    if (image_open(&e->image, o->word[0], to_change(o)) != 0)
        return TROUBLE;
    number = ask_header(e->image.bytes, e->image.length, &e->key_size);
    if (number != BHTF_ACCEPTED)
        status = refuse(o->word[0], number);
    else if (delta_append_begin(&e->append, &e->image, o->delta) != 0)
        return TROUBLE;
    if (status != DONE)
        image_drop(&e->image);
    else
        e->version = version_of(e->image.bytes);
    return status;
}

static void edit_free(struct edit *e)
{
    movers_free(&e->movers);
    buffer_free(&e->key);
    buffer_free(&e->old);
}

static int judge_all(struct edit *e)
{
    struct judgement j;

    j.file = e->o->word[0];
    j.input = e->input;
    j.before = &e->neighbours;
    j.image = e->image.bytes;
    j.length = e->image.length;
    j.key_size = e->key_size;
    j.dated = e->o->given & OPTION_EPOCH && e->key_size > EPOCH_SIZE;
    j.allowed = e->allowed | e->o->given;
    return judge(&j, &e->movers);
}

int edit_close(struct edit *e, int status)
{
    struct version now = version_of(e->image.bytes);

    if (status == DONE)
        status = judge_all(e);
    if (status != DONE || e->o->given & OPTION_DRY_RUN)
        delta_append_drop(&e->append, &e->image);
    else if (delta_append_close(&e->append, &e->image) != 0)
        status = TROUBLE;
    if (status == DONE)
        say_version(e->o->word[0], e->version, now);
    edit_free(e);
    return status;
}

int edit_once(const struct options *o,
              int (*one)(struct edit *, const struct options *))
{
    struct edit e;
    int status = edit_open(&e, o);

    return status == DONE ? edit_close(&e, one(&e, o)) : status;
}

/* ---- one point ---- */

static struct target target(const struct edit *e)
{
    const struct target to = { e->image.bytes, e->image.length, e->image.file };

    return to;
}

static struct piece piece_of(const char *word)
{
    struct piece p = { (const uint8_t *)"", 0 };

    if (word != NULL) {
        p.bytes = (const uint8_t *)word;
        p.length = strlen(word);
    }
    return p;
}

static struct piece old_text(const struct edit *e)
{
    struct piece p = { (const uint8_t *)"", e->old.length };

    if (e->old.length > 0)
        p.bytes = e->old.bytes;
    return p;
}

/* What is typed is text; other bytes of a name are written \xHH. */
static int is_text(const struct edit *e, const char *what, const char *word)
{
    if (word == NULL || utf8_whole((const uint8_t *)word, strlen(word)))
        return 1;
    complain("%s: the %s %s is not UTF-8", e->place, what, word);
    return 0;
}

/* The key of a typed name, and what the point is before the change. */
static int take_point(struct edit *e, const char *name, uint32_t *slots_read)
{
    uint32_t number, offset, length;

    if (!is_text(e, "name", name))
        return TROUBLE;
    if (key_named(&e->key, e->o, (const uint8_t *)name, strlen(name),
                  e->key_size) != 0)
        return out_of_memory();
    number = bhtf_lookup_slots(e->image.bytes, e->image.length, e->key.bytes,
                               e->key.length, &offset, &length, slots_read);
    e->old.length = 0;
    e->was_there = number == BHTF_ACCEPTED;
    e->had_text = e->was_there && offset != 0;
    if (e->had_text &&
        buffer_put(&e->old, e->image.bytes + offset, length) != 0)
        return out_of_memory();
    return DONE;
}

static int refuse_change(const struct edit *e, const char *name,
                         uint32_t number, uint64_t freed)
{
    if (number < BHTF_FILE_SYSTEM)
        return refuse_point(e->place, name, number, e->key_size, freed);
    complain("%s", bhtf_file_error(e->image.file)->words);
    return TROUBLE;
}

/* The file's points as they are before a place is changed. */
static int look_around(struct edit *e)
{
    if (e->looked)
        return DONE;
    e->looked = 1;
    return neighbours_find(&e->neighbours, e->image.bytes, e->image.length,
                           e->key_size) == 0 ? DONE : out_of_memory();
}

static int has_place(struct piece text)
{
    struct piece fields[POINT_FIELDS];
    struct record record;
    int found;

    memset(&record, 0, sizeof record);
    found = text.length > 0 && point_fields(&record, text, fields) &&
            fields[EASTING].length > 0;
    buffer_free(&record.bytes);
    return found;
}

/* Stores what the key is to have; the key's point was taken before. */
static int store_text(struct edit *e, const struct options *o,
                      const struct piece *text, uint32_t mode)
{
    const struct piece old = old_text(e);
    int status = DONE;
    uint32_t number, read = 0;

    if (text != NULL && has_place(*text))
        status = look_around(e);
    if (status != DONE)
        return status;
    number = store(target(e), &e->key, text, mode, &read);
    if (number != BHTF_ACCEPTED)
        status = refuse_change(e, o->word[1], number,
                               number != BHTF_NO_ROOM ? 0
                                   : room_by_compaction(target(e), &e->key,
                                                        text, mode));
    say_slots(o, o->word[1], read);
    if (status != DONE)
        return status;
    e->changed++;
    if (e->looked && movers_put(&e->movers, &e->key, e->line,
                                e->had_text ? &old : NULL) != 0)
        return out_of_memory();
    return DONE;
}

/* ---- add ---- */

/* Options that give a text by its fields. */
static const uint64_t by_fields = OPTION_EASTING | OPTION_NORTHING |
                                  OPTION_HEIGHT | OPTION_NOTE;

static void fields_of(struct piece fields[POINT_FIELDS],
                      const struct options *o)
{
    fields[EASTING] = piece_trim(piece_of(o->easting));
    fields[NORTHING] = piece_trim(piece_of(o->northing));
    fields[HEIGHT] = piece_trim(piece_of(o->height));
    fields[NOTE] = piece_of(o->note);
}

/* The text of fields that are what they should be; `name` is the command's. */
static int put_fields(const struct edit *e, const char *name,
                      struct buffer *text,
                      const struct piece fields[POINT_FIELDS],
                      const struct options *o)
{
    int field;
    enum fault fault = point_fault(fields, '.', &field);

    if (!is_text(e, "note", o->note))
        return TROUBLE;
    if (fault != NO_FAULT)
        return complain_of_fault(e->input != NULL ? e->place : name, fault,
                                 field, fields[field]);
    return point_put(text, fields) == 0 ? DONE : out_of_memory();
}

/* The text that --easting, --northing, --height and --note give. */
static int text_of_fields(struct edit *e, struct buffer *text,
                          const struct options *o)
{
    struct piece fields[POINT_FIELDS];

    if (o->words == 3 || (o->given & OPTION_APPEND)) {
        complain("add: --easting, --northing, --height and --note give the "
                 "whole text; leave out %s",
                 o->words == 3 ? "TEXT" : "--append");
        return TROUBLE;
    }
    fields_of(fields, o);
    return put_fields(e, "add", text, fields, o);
}

/* Does add take its text from standard input, or a file? */
static int from_input(const struct options *o)
{
    return o->words == 2 && (o->given & (by_fields | OPTION_NO_TEXT)) == 0;
}

/* What of --text-file cannot be together. */
static int ask_text_file(const struct options *o)
{
    if (o->text_file == NULL || from_input(o))
        return DONE;
    complain("add: --text-file gives the whole text; leave out TEXT, the "
             "fields and --no-text");
    return TROUBLE;
}

/* A file's text may be read at any time, one from standard input before the
 * file is opened. What was read then stays where it is. */
static int text_of_input(const struct edit *e, struct buffer *text,
                         const struct options *o)
{
    if (e->typed != NULL)
        return DONE;
    if (o->text_file != NULL && strcmp(o->text_file, "-") != 0)
        return text_read(text, o);
    complain("%s: add needs a text, or --no-text", e->place);
    return TROUBLE;
}

static int read_text(struct edit *e, struct buffer *text,
                     const struct options *o)
{
    if (o->given & by_fields)
        return text_of_fields(e, text, o);
    if (from_input(o))
        return text_of_input(e, text, o);
    return buffer_put(text, o->word[2], strlen(o->word[2])) == 0
        ? DONE : out_of_memory();
}

static int complain_of_loss(const struct edit *e, const char *name,
                            unsigned lost)
{
    struct buffer words = { NULL, 0, 0 }, drop = { NULL, 0, 0 };

    if (lost_put(&words, lost, old_text(e)) != 0 ||
        drop_put(&drop, lost) != 0)
        out_of_memory();
    else
        complain("%s: %s: refused: --replace would take away %.*s (bhtf set "
                 "changes only what it is given; --drop %.*s lets it go)",
                 e->place, name, (int)words.length, (const char *)words.bytes,
                 (int)drop.length, (const char *)drop.bytes);
    buffer_free(&words);
    buffer_free(&drop);
    return REFUSED;
}

/* Does the new text keep what the point has, except what --drop names? */
static int ask_loss(const struct edit *e, const struct options *o,
                    const struct piece *text)
{
    const struct piece old = old_text(e);
    const struct texts t = { e->was_there, e->had_text ? &old : NULL, text };
    unsigned lost, dropped;

    if (drop_read(o->drop, &dropped) != 0)
        return TROUBLE;
    if ((o->given & by_fields) == 0)
        dropped |= LOST_TEXT; /* a whole text was given in its place */
    lost = change_of(t).lost & ~dropped;
    return lost == 0 ? DONE : complain_of_loss(e, o->word[1], lost);
}

static int add_text(struct edit *e, const struct options *o,
                    const struct piece *text)
{
    uint32_t read;
    int status = take_point(e, o->word[1], &read);

    e->allowed |= o->given;
    if (status == DONE && mode_of(o) == BHTF_REPLACE && text != NULL)
        status = ask_loss(e, o, text);
    return status == DONE ? store_text(e, o, text, mode_of(o)) : status;
}

int edit_add(struct edit *e, const struct options *o)
{
    struct buffer bytes = { NULL, 0, 0 };
    struct piece text = { (const uint8_t *)"", 0 };
    const struct buffer *from;
    int status;

    if (ask_text_file(o) != DONE)
        return TROUBLE;
    if (o->given & OPTION_NO_TEXT) {
        if (o->words == 2 && (o->given & (by_fields | OPTION_APPEND)) == 0)
            return add_text(e, o, NULL);
        complain("add: --no-text goes with --replace alone, and without TEXT");
        return TROUBLE;
    }
    status = read_text(e, &bytes, o);
    from = from_input(o) && e->typed != NULL ? e->typed : &bytes;
    if (from->length > 0)
        text.bytes = from->bytes;
    text.length = from->length;
    if (status == DONE)
        status = add_text(e, o, &text);
    buffer_free(&bytes);
    return status;
}

/* ---- set ---- */

/* The fields as they are, with what is given in its place. */
static int set_fields(const struct edit *e, struct record *r,
                      struct piece fields[POINT_FIELDS],
                      const struct options *o)
{
    static const uint64_t options[POINT_FIELDS] = {
        OPTION_EASTING, OPTION_NORTHING, OPTION_HEIGHT, OPTION_NOTE
    };
    struct piece given[POINT_FIELDS];

    fields_of(fields, o);
    fields_of(given, o);
    if (e->old.length > 0 && !point_fields(r, old_text(e), fields)) {
        complain("%s: %s: refused: its text is not easting,northing,height,"
                 "note; bhtf add --replace puts another in its place",
                 e->place, o->word[1]);
        return REFUSED;
    }
    for (int i = 0; i < POINT_FIELDS; i++)
        if (o->given & options[i])
            fields[i] = given[i];
    return DONE;
}

/* The point's name, and what became of its text. */
static int say_set(const struct edit *e, const struct options *o,
                   const struct piece *now)
{
    const struct piece old = old_text(e);
    const struct texts t = { 1, e->had_text ? &old : NULL, now };
    const struct text_change c = change_of(t);
    struct buffer words = { NULL, 0, 0 };
    int done = name_show(&words, e->key.bytes, e->key.length) |
               buffer_put(&words, ": ", 2);

    done |= c.kind == CHANGE_NONE ? buffer_put(&words, "unchanged", 9)
                                  : change_put(&words, &c, t);
    if (done == 0 && !o->quiet)
        printf("%.*s\n", (int)words.length, (const char *)words.bytes);
    buffer_free(&words);
    return done == 0 ? finish_output(DONE) : out_of_memory();
}

static int set_text(struct edit *e, const struct options *o,
                    struct piece text)
{
    int status;

    if (text.length == 0) {
        complain("%s: %s: refused: nothing is left of its text; bhtf withdraw "
                 "takes a text away", e->place, o->word[1]);
        return REFUSED;
    }
    if (e->had_text && same_piece(text, old_text(e)))
        return say_set(e, o, &text);
    status = store_text(e, o, &text, BHTF_REPLACE);
    return status == DONE ? say_set(e, o, &text) : status;
}

int edit_set(struct edit *e, const struct options *o)
{
    struct piece fields[POINT_FIELDS], piece = { (const uint8_t *)"", 0 };
    struct buffer text = { NULL, 0, 0 };
    struct record record;
    uint32_t read;
    int status;

    if ((o->given & by_fields) == 0) {
        complain("%s: set needs --easting, --northing, --height or --note",
                 e->place);
        return TROUBLE;
    }
    memset(&record, 0, sizeof record);
    e->allowed |= o->given;
    status = take_point(e, o->word[1], &read);
    if (status == DONE && !e->was_there)
        status = refuse_change(e, o->word[1], BHTF_ABSENT, 0);
    if (status == DONE)
        status = set_fields(e, &record, fields, o);
    if (status == DONE)
        status = put_fields(e, "set", &text, fields, o);
    if (text.length > 0)
        piece.bytes = text.bytes;
    piece.length = text.length;
    if (status == DONE)
        status = set_text(e, o, piece);
    buffer_free(&record.bytes);
    buffer_free(&text);
    return status;
}

/* ---- withdraw and delete ---- */

int edit_withdraw(struct edit *e, const struct options *o)
{
    uint32_t read;
    int status = take_point(e, o->word[1], &read);

    return status == DONE ? store_text(e, o, NULL, BHTF_WITHDRAW) : status;
}

/* In a full table a delete looks at every slot, and at every one between a
 * point and its home. */
static void warn_of_delete(const char *file, const struct image *i)
{
    const struct header h = header_read(i->bytes);

    if (h.count >= h.slots)
        say_duration(file, "delete", h.slots +
                     slots_displaced(i->bytes, i->length, &h), h.key_size);
}

int edit_delete(struct edit *e, const struct options *o)
{
    uint32_t read = 0, number;
    int status = take_point(e, o->word[1], &read);

    if (status != DONE)
        return status;
    warn_of_delete(o->word[0], &e->image);
    number = bhtf_file_delete(e->image.file, e->key.bytes, e->key.length);
    if (number != BHTF_ACCEPTED)
        status = refuse_change(e, o->word[1], number, 0);
    say_slots(o, o->word[1], read);
    e->changed += status == DONE;
    return status;
}

/* ---- rename ---- */

/* The old name goes first, so that a full table has a slot for the new. */
static int move_text(struct edit *e, const struct options *o)
{
    const struct piece old = old_text(e);
    const struct piece *text = e->had_text ? &old : NULL;
    uint32_t read;
    uint32_t number = bhtf_file_delete(e->image.file, e->key.bytes,
                                       e->key.length);

    if (number != BHTF_ACCEPTED)
        return refuse_change(e, o->word[1], number, 0);
    if (key_from(&e->key, (const uint8_t *)o->word[2], strlen(o->word[2]),
                 e->key_size) != 0)
        return out_of_memory();
    number = store(target(e), &e->key, text, BHTF_NEW, &read);
    if (number != BHTF_ACCEPTED)
        return refuse_change(e, o->word[2], number,
                             number != BHTF_NO_ROOM ? 0
                                 : room_by_compaction(target(e), &e->key, text,
                                                      BHTF_NEW));
    e->changed++;
    return DONE;
}

int edit_rename(struct edit *e, const struct options *o)
{
    uint32_t read;
    int status;

    if (!is_text(e, "name", o->word[2]))
        return TROUBLE;
    status = take_point(e, o->word[1], &read);
    if (status == DONE && !e->was_there)
        status = refuse_change(e, o->word[1], BHTF_ABSENT, 0);
    return status == DONE ? move_text(e, o) : status;
}

/* ---- each by itself ---- */

/* Nobody waits for the file while a text is typed. */
int run_add(const struct options *o)
{
    struct buffer typed = { NULL, 0, 0 };
    int status = ask_text_file(o);
    struct edit e;

    if (status == DONE && from_input(o))
        status = text_read(&typed, o);
    if (status == DONE)
        status = edit_open(&e, o);
    if (status == DONE) {
        e.typed = &typed;
        status = edit_close(&e, edit_add(&e, o));
    }
    buffer_free(&typed);
    return status;
}

int run_set(const struct options *o)
{
    return edit_once(o, edit_set);
}

int run_rename(const struct options *o)
{
    return edit_once(o, edit_rename);
}

int run_withdraw(const struct options *o)
{
    return edit_once(o, edit_withdraw);
}

int run_delete(const struct options *o)
{
    return edit_once(o, edit_delete);
}
