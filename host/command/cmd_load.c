/* load: a new file from the text that dump writes. The file is made in memory
 * and written when all of the text was taken. */
#include "commands.h"

#include "file_version.h"
#include "image_header.h"
#include "command_limits.h"
#include "progress.h"
#include "quoted.h"
#include "put_point.h"
#include "dump_head.h"

#include <errno.h>
#include <stdlib.h>
#include <string.h>

struct load {
    const struct options *o;
    const char *input;
    FILE *file;
    struct buffer line;     /* without its end, and with a zero byte */
    unsigned long number;   /* of the line */
    uint64_t taken;         /* bytes that were read */
    struct dump_head head;
    struct version format;  /* that --format names */
    uint8_t *image;         /* NULL until the first point, or the end */
    size_t length;
    struct buffer name;
    struct buffer key;
    struct buffer text;
    unsigned long stored;
    int ended;              /* the line end was read */
    struct progress progress;
};

static int complain_of_line(struct load *l, const char *words)
{
    progress_end(&l->progress);
    complain("%s: line %lu: %s", l->input, l->number, words);
    return TROUBLE;
}

/* ---- lines ---- */

/* Bytes of a long line after which it is shown how far the work is. */
enum { SHOWN_AFTER = 1 << 20 };

static int end_of_stream(struct load *l)
{
    if (interrupted)
        complain("%s: load interrupted", l->input);
    else if (ferror(l->file))
        complain("%s: cannot be read: %s", l->input, strerror(errno));
    else if (!l->ended)
        complain("%s: the dump was cut short: it has no line end", l->input);
    return interrupted || ferror(l->file) || !l->ended ? TROUBLE : DONE;
}

/* Reads the next line; *more is 0 after the last. */
static int read_line(struct load *l, int *more)
{
    int byte = getc(l->file);

    l->line.length = 0;
    *more = byte != EOF && !interrupted;
    for (; byte != EOF && byte != '\n'; byte = getc(l->file)) {
        if (l->line.length >= DUMP_LINE_MAX)
            return complain_of_line(l, "the line is too long");
        if (buffer_put_byte(&l->line, (uint8_t)byte) != 0)
            return out_of_memory();
        if (l->line.length % SHOWN_AFTER == 0)
            progress_show(&l->progress, l->stored, l->taken + l->line.length);
    }
    l->number++;
    l->taken += l->line.length + 1;
    if (l->line.length > 0 && l->line.bytes[l->line.length - 1] == '\r')
        l->line.length--;
    if (buffer_put_byte(&l->line, '\0') != 0)
        return out_of_memory();
    l->line.length--;
    return DONE;
}

/* ---- the image ---- */

/* The bytes that the dump's file has for texts; 0 if it does not say. */
static uint64_t room_of(const struct dump_head *h)
{
    uint64_t end = h->slots == 0 || h->slots > BHTF_SLOTS_MAX
        ? 0 : table_end(h->key_size, h->slots);

    return end == 0 || h->size <= end ? 0 : h->size - end;
}

/* Another table leaves the texts their room, and more slots bring more of it,
 * as far as a file may be long. */
static void keep_room(struct dump_head *h, uint64_t room, uint64_t slots)
{
    uint64_t end = table_end(h->key_size, h->slots);

    if (h->slots > slots)
        room = room / slots * h->slots + room % slots * h->slots / slots;
    h->size = end + (room + BHTF_PAGE - 1) / BHTF_PAGE * BHTF_PAGE;
    if (h->size > BHTF_IMAGE_MAX)
        h->size = BHTF_IMAGE_MAX;
}

/* What the command line says goes before what the dump says. */
static void use_options(struct load *l)
{
    const struct options *o = l->o;
    const uint64_t room = room_of(&l->head), slots = l->head.slots;

    if (o->format != NULL) {
        l->head.version = l->format;
    }
    if (o->given & OPTION_KEY_SIZE)
        l->head.key_size = o->key_size;
    if (o->given & OPTION_SLOTS)
        l->head.slots = o->slots == 0 ? BHTF_SLOTS_DEFAULT : o->slots;
    if (o->given & OPTION_SEED) {
        l->head.seed = o->seed;
        l->head.seeded = 1;
        l->head.scrambles = 0;
    }
    if (o->given & OPTION_SIZE)
        l->head.size = o->size;
    else if (room > 0 && (o->given & (OPTION_SLOTS | OPTION_KEY_SIZE)) &&
             l->head.slots <= BHTF_SLOTS_MAX &&
             l->head.key_size <= BHTF_KEY_MAX)
        keep_room(&l->head, room, slots);
    if (l->head.size == 0)
        l->head.size = usual_size(l->head.key_size, l->head.slots);
}

static int make_image(struct load *l)
{
    const char *wrong;
    int64_t number;

    use_options(l);
    wrong = dump_head_whole(&l->head);
    if (wrong != NULL)
        return complain_of_line(l, wrong);
    if (!size_fits(l->head.size))
        return refuse(l->o->word[0], BHTF_BAD_LENGTH);
    l->length = (size_t)l->head.size;
    l->image = malloc(l->length);
    if (l->image == NULL)
        return out_of_memory();
    number = dump_head_create(&l->head, l->image, l->length);
    if (number < 0)
        return out_of_memory();
    return number == BHTF_ACCEPTED ? DONE
                                   : refuse(l->o->word[0], (uint32_t)number);
}

/* ---- points ---- */

/* Takes name and text; *has_text is 0 where a minus stands for it. */
static const char *take_point(struct load *l, int *has_text)
{
    const uint8_t *end = l->line.bytes + l->line.length;
    const char *wrong;
    const uint8_t *at;

    l->name.length = 0;
    l->text.length = 0;
    at = quoted_take(&l->name, l->line.bytes, end, &wrong);
    if (at == NULL)
        return wrong;
    if (at == end || *at++ != ' ')
        return "there is no blank between name and text";
    *has_text = end - at != 1 || *at != '-';
    if (!*has_text)
        return NULL;
    at = quoted_take(&l->text, at, end, &wrong);
    if (at == NULL)
        return wrong;
    return at == end ? NULL : "there is something behind the text";
}

/* The name as a key; a longer one stays so, and the library refuses it. */
static int make_key(struct load *l)
{
    l->key.length = 0;
    if (buffer_put(&l->key, l->name.bytes, l->name.length) != 0)
        return out_of_memory();
    while (l->key.length < l->head.key_size)
        if (buffer_put_byte(&l->key, 0) != 0)
            return out_of_memory();
    return DONE;
}

static int refuse_line(struct load *l, uint32_t number)
{
    struct buffer place = { NULL, 0, 0 };
    struct buffer shown = { NULL, 0, 0 };
    char line[32];

    progress_end(&l->progress);
    snprintf(line, sizeof line, ": line %lu", l->number);
    if (buffer_put(&place, l->input, strlen(l->input)) != 0 ||
        buffer_put(&place, line, strlen(line) + 1) != 0 ||
        name_show(&shown, l->name.bytes, l->name.length) != 0 ||
        buffer_put_byte(&shown, '\0') != 0)
        out_of_memory();
    else
        refuse_point((const char *)place.bytes, (const char *)shown.bytes,
                     number, (uint32_t)l->head.key_size, 0);
    buffer_free(&place);
    buffer_free(&shown);
    return REFUSED;
}

static int store_point(struct load *l, int has_text)
{
    const struct target to = { l->image, l->length, NULL };
    const struct piece text = { l->text.bytes, l->text.length };
    uint32_t number, read;

    if (make_key(l) != DONE)
        return TROUBLE;
    number = store(to, &l->key, has_text ? &text : NULL, BHTF_NEW, &read);
    if (number != BHTF_ACCEPTED)
        return refuse_line(l, number);
    l->stored++;
    return DONE;
}

static int read_point(struct load *l)
{
    int has_text = 0;
    const char *wrong = take_point(l, &has_text);
    int status = DONE;

    if (wrong != NULL)
        return complain_of_line(l, wrong);
    if (has_text && l->text.length == 0 && l->o->format != NULL &&
        !version_has_notes(l->format))
        return complain_of_line(l, "a file of the version that --format names "
                                   "has no empty text; a point without a text "
                                   "has a minus");
    if (l->image == NULL)
        status = make_image(l);
    return status == DONE ? store_point(l, has_text) : status;
}

/* ---- the dump ---- */

static int read_first(struct load *l)
{
    char wanted[32];

    snprintf(wanted, sizeof wanted, "bhtf-dump %u", DUMP_VERSION);
    if (strcmp((const char *)l->line.bytes, wanted) == 0)
        return DONE;
    if (strncmp((const char *)l->line.bytes, "bhtf-dump ", 10) == 0)
        return complain_of_line(l, "this version of the dump is not known");
    return complain_of_line(l, "this is no dump: it does not begin with "
                               "bhtf-dump and a version");
}

static int read_terms(struct load *l)
{
    const char *wrong;

    if (l->image != NULL)
        return complain_of_line(l, "behind the first point there are points, "
                                   "comments and the line end");
    if (strlen((const char *)l->line.bytes) != l->line.length)
        return complain_of_line(l, "the line is not known");
    wrong = dump_head_take(&l->head, (const char *)l->line.bytes);
    return wrong == NULL ? DONE : complain_of_line(l, wrong);
}

static int read_end(struct load *l)
{
    l->ended = 1;
    return l->image == NULL ? make_image(l) : DONE;
}

static int take_line(struct load *l)
{
    const char *line = (const char *)l->line.bytes;

    if (l->number == 1)
        return read_first(l);
    if (l->line.length == 0 || line[0] == '#')
        return DONE;
    if (l->ended)
        return complain_of_line(l, "there is something behind the line end");
    if (line[0] == '"')
        return read_point(l);
    return strcmp(line, "end") == 0 ? read_end(l) : read_terms(l);
}

static int read_dump(struct load *l)
{
    int status = DONE;
    int more = 1;

    catch_interrupts();
    if (l->file == stdin)
        tell_waiting(l->o->word[0], "the lines of a dump", l->o->quiet);
    progress_begin(&l->progress, "read", stream_length(l->file), l->o->quiet);
    while (status == DONE && more) {
        status = read_line(l, &more);
        if (status == DONE && more)
            status = take_line(l);
        progress_show(&l->progress, l->stored, l->taken);
    }
    progress_end(&l->progress);
    return status == DONE ? end_of_stream(l) : status;
}

/* ---- load ---- */

static int write_file(struct load *l)
{
    struct image i;

    if (image_create(&i, l->o->word[0], l->length,
                     !(l->o->given & OPTION_NO_SYNC)) != 0)
        return TROUBLE;
    memcpy(i.bytes, l->image, l->length);
    if (image_close(&i) != 0)
        return TROUBLE;
    if (!l->o->quiet)
        printf("%lu point%s loaded\n", l->stored, l->stored == 1 ? "" : "s");
    return finish_output(DONE);
}

static int open_input(struct load *l)
{
    int standard = l->o->words < 2 || strcmp(l->o->word[1], "-") == 0;

    l->input = standard ? "standard input" : l->o->word[1];
    l->file = standard ? stdin : fopen(l->o->word[1], "r");
    if (l->file != NULL)
        return DONE;
    complain("%s: cannot open: %s", l->input, strerror(errno));
    return TROUBLE;
}

int run_load(const struct options *o)
{
    struct load l;
    int status;

    memset(&l, 0, sizeof l);
    l.o = o;
    dump_head_clear(&l.head);
    status = o->format == NULL ? DONE : format_read(o, &l.format);
    if (status == DONE)
        status = open_input(&l);
    if (status == DONE)
        status = read_dump(&l);
    if (status == DONE && l.head.version.number[0] != 0)
        say_version(o->word[0], l.head.version, version_of(l.image));
    if (status == DONE)
        status = write_file(&l);
    if (l.file != NULL && l.file != stdin)
        fclose(l.file);
    free(l.image);
    buffer_free(&l.line);
    buffer_free(&l.name);
    buffer_free(&l.key);
    buffer_free(&l.text);
    return status;
}
