/* create, get and count, and what the commands share. */
#include "commands.h"

#include "csv.h"
#include "file_version.h"
#include "image_header.h"
#include "command_limits.h"
#include "terminal.h"
#include "text_file.h"

#include <string.h>
#include <unistd.h>

/* ---- shared by the commands ---- */

/* Is this some other file? What cannot be read is not known to be. */
static int is_foreign(const char *path)
{
    char head[4] = "BHTF";
    FILE *file = fopen(path, "r");
    size_t got;

    if (file == NULL)
        return 0;
    got = fread(head, 1, sizeof head, file);
    fclose(file);
    return got < sizeof head || memcmp(head, "BHTF", sizeof head) != 0;
}

int refuse(const char *file, uint32_t number)
{
    complain("%s: refused (%lu): %s%s", file, (unsigned long)number,
             bhtf_message(number),
             number == BHTF_BAD_LENGTH && is_foreign(file)
                 ? " This is no control point file: it does not begin with "
                   "BHTF." : "");
    return REFUSED;
}

const char *advice_for(uint32_t number)
{
    if (number == BHTF_TABLE_FULL)
        return " (bhtf grow with --slots makes its table larger)";
    if (number == BHTF_TOO_LONG)
        return " (bhtf convert makes a file of version 2.0.0)";
    if (number == BHTF_NO_ROOM)
        return " (bhtf dump, and bhtf load with --size, make a larger one)";
    return "";
}

int refuse_point(const char *file, const char *name, uint32_t number,
                 uint32_t key_size, uint64_t freed)
{
    if (number == BHTF_NO_ROOM && freed > 0)
        complain("%s: %s: refused (13): %s (bhtf compact frees %lu bytes, "
                 "which is enough)", file, name, bhtf_message(number),
                 (unsigned long)freed);
    else if (number == BHTF_BAD_KEY)
        complain("%s: %s: refused (7): A name in this file has 1 to %lu "
                 "bytes, not all of them zero.", file, name,
                 (unsigned long)key_size);
    else
        complain("%s: %s: refused (%lu): %s%s", file, name,
                 (unsigned long)number, bhtf_message(number), advice_for(number));
    return REFUSED;
}

void say_slots(const struct options *o, const char *name, uint32_t slots_read)
{
    if (o->given & OPTION_SLOTS_READ)
        complain("%s: %s: %lu %s read", o->word[0], name,
                 (unsigned long)slots_read, slots_read == 1 ? "slot" : "slots");
}

int no_text(const struct options *o, const char *name)
{
    if (!o->quiet)
        complain("%s: %s: the point has no text", o->word[0], name);
    return REFUSED;
}

int leave_out(const char *file, const struct buffer *name, uint32_t number)
{
    complain("%s: %.*s: left out: %s", file, (int)name->length,
             (const char *)name->bytes, bhtf_message(number));
    return REFUSED;
}

int key_from(struct buffer *key, const uint8_t *typed, size_t length,
             uint32_t key_size)
{
    const struct piece name = piece_trim((struct piece){ typed, length });

    key->length = 0;
    if (name_read(key, name.bytes, name.length) != 0)
        return -1;
    while (key->length < key_size)
        if (buffer_put_byte(key, 0) != 0)
            return -1;
    return 0;
}

uint32_t ask_header(const uint8_t *bytes, size_t length, uint32_t *key_size)
{
    uint32_t count;
    uint32_t number = bhtf_count(bytes, length, &count);

    *key_size = number == BHTF_ACCEPTED ? header_read(bytes).key_size : 0;
    return number;
}

int copy_accepted(struct buffer *copy, const struct options *o,
                  uint32_t *key_size)
{
    uint32_t number;

    if (image_copy(copy, o->word[0], (unsigned)o->wait) != 0)
        return TROUBLE;
    number = ask_header(copy->bytes, copy->length, key_size);
    return number == BHTF_ACCEPTED ? DONE : refuse(o->word[0], number);
}

struct manner to_change(const struct options *o)
{
    const struct manner how = { 1, (unsigned)o->wait,
                                !(o->given & OPTION_NO_SYNC) };

    return how;
}

static struct manner to_read(const struct options *o)
{
    const struct manner how = { 0, (unsigned)o->wait, 1 };

    return how;
}

/* Opens a file and makes a key of the second word: DONE, or the status after
 * a complaint; the file is then closed again. */
static int open_for_point(struct image *i, struct buffer *key,
                          const struct options *o, uint32_t *key_size)
{
    const char *name = o->word[1];
    uint32_t number;
    int status = DONE;

    if (image_open(i, o->word[0], to_read(o)) != 0)
        return TROUBLE;
    number = ask_header(i->bytes, i->length, key_size);
    if (number != BHTF_ACCEPTED)
        status = refuse(o->word[0], number);
    else if (key_from(key, (const uint8_t *)name, strlen(name), *key_size) != 0)
        status = out_of_memory();
    if (status != DONE)
        image_drop(i);
    return status;
}

/* ---- create ---- */

/* What was refused, with the numbers that it hangs on. */
static int refuse_create(const char *file, uint32_t number, uint64_t key_size,
                         uint64_t slots)
{
    if (slots == 0)
        slots = BHTF_SLOTS_DEFAULT;
    if (number != BHTF_TABLE_TOO_BIG)
        return refuse(file, number);
    complain("%s: refused (4): A table of %lu slots for names of %lu bytes "
             "needs a file of %lu bytes, and more for texts.", file,
             (unsigned long)slots, (unsigned long)key_size,
             (unsigned long)table_end(key_size, slots));
    return REFUSED;
}

int run_create(const struct options *o)
{
    uint64_t key_size = o->given & OPTION_KEY_SIZE ? o->key_size
                                                    : KEY_SIZE_USUAL;
    uint64_t size = o->given & OPTION_SIZE ? o->size
                                           : usual_size(key_size, o->slots);
    struct version format;
    struct image i;
    int64_t number;

    if (o->format != NULL && format_read(o, &format) != DONE)
        return TROUBLE;
    if (!size_fits(size))
        return refuse(o->word[0], BHTF_BAD_LENGTH);
    if (image_create(&i, o->word[0], (size_t)size,
                     !(o->given & OPTION_NO_SYNC)) != 0)
        return TROUBLE;
    number = bhtf_create(i.bytes, i.length, (uint32_t)key_size,
                         (uint32_t)o->slots, (uint32_t)o->seed);
    if (number == BHTF_ACCEPTED && o->format != NULL)
        number = version_give(i.bytes, i.length, format);
    if (number == BHTF_ACCEPTED)
        return image_close(&i) == 0 ? DONE : TROUBLE;
    image_drop(&i);
    return number < 0 ? out_of_memory()
                      : refuse_create(o->word[0], (uint32_t)number, key_size,
                                      o->slots);
}

/* ---- get ---- */

static int print_text(const struct buffer *text, const struct options *o)
{
    /* Asked first, since it changes errno, which says why a write failed. */
    int on_terminal = isatty(STDOUT_FILENO);

    if (text->length == 0 && !o->quiet)
        complain("%s: %s: the point's text is empty", o->word[0], o->word[1]);
    put_bytes(text->bytes, text->length);
    if (text->length > 0 && text->bytes[text->length - 1] != '\n' &&
        on_terminal)
        putchar('\n');
    return finish_output(DONE);
}

int run_get(const struct options *o)
{
    struct buffer key = { NULL, 0, 0 };
    struct buffer text = { NULL, 0, 0 };
    struct image i;
    uint32_t number, slots_read, key_size, offset, length;
    int status;

    if (o->words > 2 || (o->given & (OPTION_TSV | OPTION_JSON))) {
        if (o->text_file == NULL)
            return get_several(o);
        complain("get: --text-file goes with one point, and without --tsv and "
                 "--json");
        return TROUBLE;
    }
    status = open_for_point(&i, &key, o, &key_size);
    if (status == DONE) {
        number = bhtf_lookup_slots(i.bytes, i.length, key.bytes, key.length,
                                   &offset, &length, &slots_read);
        if (buffer_put(&text, i.bytes + offset, length) != 0)
            status = out_of_memory();
        image_drop(&i);
        if (status == DONE && number != BHTF_ACCEPTED)
            status = refuse_point(o->word[0], o->word[1], number, key_size, 0);
        say_slots(o, o->word[1], slots_read);
    }
    if (status == DONE && offset == 0)
        status = no_text(o, o->word[1]);
    else if (status == DONE)
        status = o->text_file == NULL ? print_text(&text, o)
                                      : text_write(&text, o);
    buffer_free(&text);
    buffer_free(&key);
    return status;
}

/* ---- count ---- */

int run_count(const struct options *o)
{
    struct image i;
    uint32_t number, count;

    if (image_open(&i, o->word[0], to_read(o)) != 0)
        return TROUBLE;
    number = bhtf_count(i.bytes, i.length, &count);
    image_drop(&i);
    if (number != BHTF_ACCEPTED)
        return refuse(o->word[0], number);
    printf("%lu\n", (unsigned long)count);
    return finish_output(DONE);
}
