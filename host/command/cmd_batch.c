/* batch: several changes as one. A line is a change as on the command line,
 * without the file: add, set, rename, withdraw, delete. */
#include "edit.h"

#include "utf8.h"

#include <errno.h>
#include <stdlib.h>
#include <string.h>

enum { WORDS_MAX = 64 };

/* Options that are of the whole batch, and not of a line. */
static const uint64_t of_all = OPTION_DELTA | OPTION_NO_SYNC | OPTION_LOG;

struct batch {
    const struct options *o;
    const char *input;
    struct buffer bytes;      /* all lines */
    struct edit edit;
    char place[512];          /* words: input and line */
};

static int complain_of_line(const struct batch *b, const char *words)
{
    complain("%s: %s", b->place, words);
    return TROUBLE;
}

/* ---- words ---- */

static int is_blank(char c)
{
    return c == ' ' || c == '\t' || c == '\r';
}

/* Takes one word apart in place; quotes of either kind keep blanks, and what
 * is in them stays as it is. Where the word ends, or NULL for an open quote. */
static char *take_word(char *at)
{
    char *to = at;
    char quote = '\0';

    for (; *at != '\0' && (quote != '\0' || !is_blank(*at)); at++) {
        if (quote == '\0' && (*at == '"' || *at == '\''))
            quote = *at;
        else if (quote != '\0' && *at == quote)
            quote = '\0';
        else
            *to++ = *at;
    }
    if (quote != '\0')
        return NULL;
    if (*at != '\0')
        at++;
    *to = '\0';
    return at;
}

/* The words of a line; -1 after a complaint. */
static int split(const struct batch *b, char *line, char **words)
{
    int count = 0;

    while (is_blank(*line))
        line++;
    while (*line != '\0' && !(count == 0 && *line == '#')) {
        if (count == WORDS_MAX) {
            complain_of_line(b, "there are too many words");
            return -1;
        }
        words[count++] = line;
        line = take_word(line);
        if (line == NULL) {
            complain_of_line(b, "a quote is not closed");
            return -1;
        }
        while (is_blank(*line))
            line++;
    }
    return count;
}

/* ---- a line ---- */

static int (*change_named(const char *name))(struct edit *,
                                             const struct options *)
{
    static const struct {
        const char *name;
        int (*change)(struct edit *, const struct options *);
    } all[] = {
        { "add", edit_add }, { "set", edit_set }, { "rename", edit_rename },
        { "withdraw", edit_withdraw }, { "delete", edit_delete }
    };

    for (size_t i = 0; i < sizeof all / sizeof all[0]; i++)
        if (strcmp(all[i].name, name) == 0)
            return all[i].change;
    return NULL;
}

/* The words without the command, and with the file in front. */
static int run_words(struct batch *b, int count, char **words)
{
    int (*change)(struct edit *, const struct options *) =
        change_named(words[0]);
    struct command command;
    struct options o;
    int status;

    if (change == NULL)
        return complain_of_line(b, "a line begins with add, set, rename, "
                                   "withdraw or delete");
    command = *command_find(words[0]);
    command.takes &= ~of_all;
    words[0] = b->o->word[0];
    status = options_read(&o, &command, count, words);
    if (status != DONE || o.help || o.version)
        return complain_of_line(b, "that cannot be done");
    o.quiet |= b->o->quiet;
    return change(&b->edit, &o);
}

static int run_line(struct batch *b, char *line, size_t length,
                    unsigned long number)
{
    char *words[WORDS_MAX];
    int count;

    snprintf(b->place, sizeof b->place, "%s: line %lu", b->input, number);
    b->edit.place = b->place;
    b->edit.line = number;
    if (strlen(line) != length ||
        !utf8_whole((const uint8_t *)line, length))
        return complain_of_line(b, "this is not UTF-8");
    count = split(b, line, words);
    if (count < 0)
        return TROUBLE;
    return count == 0 ? DONE : run_words(b, count, words);
}

static int run_lines(struct batch *b)
{
    char *at = (char *)b->bytes.bytes;
    char *end = at + b->bytes.length;
    unsigned long number = 0;
    int status = DONE;

    while (at < end && status == DONE) {
        char *line_end = memchr(at, '\n', (size_t)(end - at));
        char *next = line_end == NULL ? end : line_end + 1;

        if (line_end == NULL)
            line_end = end;
        *line_end = '\0';
        status = run_line(b, at, (size_t)(line_end - at), ++number);
        at = next;
    }
    return status;
}

/* ---- all of them ---- */

static int read_lines(struct batch *b)
{
    int standard = b->o->words < 2 || strcmp(b->o->word[1], "-") == 0;
    FILE *file = standard ? stdin : fopen(b->o->word[1], "r");
    int done;

    b->input = standard ? "standard input" : b->o->word[1];
    if (file == NULL) {
        complain("%s: cannot open: %s", b->input, strerror(errno));
        return TROUBLE;
    }
    done = buffer_read(&b->bytes, file, (size_t)1 << 28);
    if (done != 0)
        complain("%s: cannot be read: %s", b->input, strerror(errno));
    else if (buffer_put_byte(&b->bytes, '\0') != 0)
        done = -1;
    b->bytes.length -= done == 0;
    if (!standard)
        fclose(file);
    return done == 0 ? DONE : TROUBLE;
}

static int report(const struct batch *b, unsigned long changed, int status)
{
    int dry = (b->o->given & OPTION_DRY_RUN) != 0;

    if (status != DONE)
        complain("%s: nothing was changed in %s", b->input, b->o->word[0]);
    else if (!b->o->quiet)
        printf("%lu change%s%s\n", changed, changed == 1 ? "" : "s",
               dry ? " would be made" : " made, as one");
    return finish_output(status);
}

int run_batch(const struct options *o)
{
    struct batch b;
    unsigned long changed = 0;
    int status;

    memset(&b, 0, sizeof b);
    b.o = o;
    status = read_lines(&b);
    if (status == DONE)
        status = edit_open(&b.edit, o);
    if (status == DONE) {
        b.edit.input = b.input;
        status = run_lines(&b);
        changed = b.edit.changed;
        status = edit_close(&b.edit, status);
        status = report(&b, changed, status);
    }
    buffer_free(&b.bytes);
    return status;
}
