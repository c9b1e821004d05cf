/* The words of the command line. */
#include "commands.h"

#include "command_limits.h"

#include <string.h>

/* A FORM is plain, and its name is kept. */
enum kind { PLAIN, NUMBER, SIZE, TEXT, FORM };

/* An option; `place` is where its value goes. */
struct row {
    char letter;         /* 0: it has none */
    const char *name;
    uint64_t option;     /* 0: every command takes it */
    enum kind kind;
    size_t place;
    uint64_t least;      /* of a number, for words to the user */
    uint64_t most;
};

#define AT(member) offsetof(struct options, member)

/* A number above its `most` is left to the library, which has a refusal for
 * it, as long as it can be handed over. */
static const struct row all[] = {
    { 'k', "--key-size", OPTION_KEY_SIZE, NUMBER, AT(key_size), 1, BHTF_KEY_MAX },
    { 's', "--slots", OPTION_SLOTS, NUMBER, AT(slots), 0, BHTF_SLOTS_MAX },
    { 0, "--seed", OPTION_SEED, NUMBER, AT(seed), 0, UINT32_MAX },
    { 'S', "--size", OPTION_SIZE, SIZE, AT(size), BHTF_PAGE, BHTF_IMAGE_MAX },
    { 'r', "--replace", OPTION_REPLACE, PLAIN, 0, 0, 0 },
    { 'a', "--append", OPTION_APPEND, PLAIN, 0, 0, 0 },
    { 'l', "--long", OPTION_LONG, PLAIN, 0, 0, 0 },
    { 0, "--crlf", OPTION_CRLF, PLAIN, 0, 0, 0 },
    { 'E', "--easting", OPTION_EASTING, TEXT, AT(easting), 0, 0 },
    { 'N', "--northing", OPTION_NORTHING, TEXT, AT(northing), 0, 0 },
    { 'H', "--height", OPTION_HEIGHT, TEXT, AT(height), 0, 0 },
    { 't', "--note", OPTION_NOTE, TEXT, AT(note), 0, 0 },
    { 'c', "--columns", OPTION_COLUMNS, TEXT, AT(columns), 0, 0 },
    { 'd', "--delimiter", OPTION_DELIMITER, TEXT, AT(delimiter), 0, 0 },
    { 0, "--decimal", OPTION_DECIMAL, TEXT, AT(decimal), 0, 0 },
    { 0, "--skip", OPTION_SKIP, NUMBER, AT(skip), 0, UINT32_MAX },
    { 0, "--any-text", OPTION_ANY_TEXT, PLAIN, 0, 0, 0 },
    { 'n', "--dry-run", OPTION_DRY_RUN, PLAIN, 0, 0, 0 },
    { 0, "--slots", OPTION_SLOTS_READ, PLAIN, 0, 0, 0 },
    { 0, "--no-text", OPTION_NO_TEXT, PLAIN, 0, 0, 0 },
    { 0, "--format", OPTION_FORMAT, TEXT, AT(format), 0, 0 },
    { 0, "--delta", OPTION_DELTA, TEXT, AT(delta), 0, 0 },
    { 0, "--no-sync", OPTION_NO_SYNC, PLAIN, 0, 0, 0 },
    { 0, "--keep-going", OPTION_KEEP_GOING, PLAIN, 0, 0, 0 },
    { 0, "--update", OPTION_UPDATE, PLAIN, 0, 0, 0 },
    { 0, "--encoding", OPTION_ENCODING, TEXT, AT(encoding), 0, 0 },
    { 0, "--drop", OPTION_DROP, TEXT, AT(drop), 0, 0 },
    { 0, "--allow-far", OPTION_ALLOW_FAR, PLAIN, 0, 0, 0 },
    { 0, "--allow-near", OPTION_ALLOW_NEAR, PLAIN, 0, 0, 0 },
    { 0, "--allow-swapped", OPTION_ALLOW_SWAPPED, PLAIN, 0, 0, 0 },
    { 0, "--log", OPTION_LOG, PLAIN, 0, 0, 0 },
    { 0, "--against", OPTION_AGAINST, TEXT, AT(against), 0, 0 },
    { 'p', "--paper", OPTION_PAPER, TEXT, AT(paper), 0, 0 },
    { 's', "--station", OPTION_STATION, TEXT, AT(station), 0, 0 },
    { 0, "--sigma", OPTION_SIGMA, TEXT, AT(sigma), 0, 0 },
    { 0, "--svg", OPTION_SVG, PLAIN, 0, 0, 0 },
    { 'b', "--by", OPTION_BY, TEXT, AT(by), 0, 0 },
    { 0, "--tolerance", OPTION_TOLERANCE, TEXT, AT(tolerance), 0, 0 },
    { 0, "--tsv", OPTION_TSV, PLAIN, 0, 0, 0 },
    { 0, "--json", OPTION_JSON, PLAIN, 0, 0, 0 },
    { 0, "--gsi", OPTION_GSI, PLAIN, 0, 0, 0 },
    { 0, "--landxml", OPTION_LANDXML, PLAIN, 0, 0, 0 },
    { 0, "--dxf", OPTION_DXF, PLAIN, 0, 0, 0 },
    { 0, "--width", OPTION_WIDTH, NUMBER, AT(width), 1, 64 },
    { 0, "--fields", OPTION_FIELDS, TEXT, AT(fields), 0, 0 },
    { 0, "--little", OPTION_LITTLE, PLAIN, 0, 0, 0 },
    { 0, "--column", OPTION_COLUMN, NUMBER, AT(column), 1, 64 },
    { 0, "--csv", OPTION_CSV, PLAIN, 0, 0, 0 },
    { 0, "--alike", OPTION_ALIKE, PLAIN, 0, 0, 0 },
    { 0, "--near", OPTION_NEAR, TEXT, AT(near), 0, 0 },
    { 0, "--epoch", OPTION_EPOCH, TEXT, AT(epoch), 0, 0 },
    { 0, "--epoch-unit", OPTION_EPOCH_UNIT, TEXT, AT(unit), 0, 0 },
    { 0, "--from", OPTION_FROM, TEXT, AT(from), 0, 0 },
    { 0, "--to", OPTION_TO, TEXT, AT(to), 0, 0 },
    { 0, "--alpha", OPTION_ALPHA, TEXT, AT(alpha), 0, 0 },
    { 0, "--spreadsheet", OPTION_SPREADSHEET, PLAIN, 0, 0, 0 },
    { 0, "--text-file", OPTION_TEXT_FILE, TEXT, AT(text_file), 0, 0 },
    { 0, "--pdf", OPTION_FORM, FORM, AT(form), 0, 0 },
    { 0, "--png", OPTION_FORM, FORM, AT(form), 0, 0 },
    { 0, "--html", OPTION_FORM, FORM, AT(form), 0, 0 },
    { 0, "--project", OPTION_BLOCK, TEXT, AT(project), 0, 0 },
    { 0, "--datum", OPTION_BLOCK, TEXT, AT(datum), 0, 0 },
    { 0, "--sheet", OPTION_SHEET, NUMBER, AT(sheet), 1, 999 },
    { 0, "--finish", OPTION_FINISH, PLAIN, 0, 0, 0 },
    { 0, "--set-aside", OPTION_SET_ASIDE, PLAIN, 0, 0, 0 },
    { 'w', "--wait", 0, NUMBER, AT(wait), 0, WAIT_MAX },
    { 'q', "--quiet", 0, PLAIN, AT(quiet), 0, 0 },
    { 'h', "--help", 0, PLAIN, AT(help), 0, 0 },
    { 'V', "--version", 0, PLAIN, AT(version), 0, 0 }
};

static void *place_of(struct options *o, const struct row *r)
{
    return (char *)o + r->place;
}

static int taken_by(const struct row *r, const struct command *command)
{
    return (command->takes & r->option) == r->option;
}

/* Is the word --name, or --name=value? *value is NULL without a value. */
static int is_long(const char *word, const char *name, char **value)
{
    size_t length = strlen(name);

    if (strncmp(word, name, length) != 0)
        return 0;
    if (word[length] != '\0' && word[length] != '=')
        return 0;
    *value = word[length] == '=' ? (char *)word + length + 1 : NULL;
    return 1;
}

static const struct row *find_long(const struct command *command,
                                   const char *word, char **value)
{
    for (size_t i = 0; i < sizeof all / sizeof all[0]; i++)
        if (is_long(word, all[i].name, value) && taken_by(&all[i], command))
            return &all[i];
    return NULL;
}

static const struct row *find_letter(const struct command *command,
                                     char letter)
{
    for (size_t i = 0; i < sizeof all / sizeof all[0]; i++)
        if (all[i].letter == letter && taken_by(&all[i], command))
            return &all[i];
    return NULL;
}

static int unknown(const struct command *command, const char *word)
{
    complain("%s: unknown option %s (an argument that begins with - goes "
             "behind a word --); see bhtf %s --help", command->name, word,
             command->name);
    return -1;
}

static uint64_t bound(const struct row *r)
{
    return r->option == 0 ? r->most : UINT32_MAX;
}

static int complain_of_number(const struct row *r, const char *value)
{
    complain("%s needs a %s from %lu to %lu%s%s", r->name,
             r->kind == SIZE ? "size" : "number", (unsigned long)r->least,
             (unsigned long)r->most, value == NULL ? "" : ", and not ",
             value == NULL ? "" : value);
    return -1;
}

/* Keeps the form of a picture, of which there is one. */
static int keep_form(const char **form, const char *name)
{
    if (*form != NULL && strcmp(*form, name) != 0) {
        complain("%s or %s, not both", *form, name);
        return -1;
    }
    *form = name;
    return 0;
}

static int is_bare(const struct row *r)
{
    return r->kind == PLAIN || r->kind == FORM;
}

/* Keeps an option and its value: 0, or -1 after a complaint. */
static int keep(struct options *o, const struct row *r, char *value)
{
    uint64_t *number = place_of(o, r);

    if (r->kind == NUMBER &&
        (value == NULL || number_read(value, bound(r), number) != 0))
        return complain_of_number(r, value);
    if (r->kind == SIZE &&
        (value == NULL || size_read(value, bound(r), number) != 0))
        return complain_of_number(r, value);
    if (r->kind == TEXT && value == NULL) {
        complain("%s needs a value", r->name);
        return -1;
    }
    if (r->kind == TEXT)
        *(const char **)place_of(o, r) = value;
    if (r->kind == FORM && keep_form(place_of(o, r), r->name) != 0)
        return -1;
    if (r->kind == PLAIN && r->option == 0)
        *(int *)place_of(o, r) = 1;
    o->given |= r->option;
    return 0;
}

/* Each of the next two answers how many words it used, or -1 after a
 * complaint. */
static int take_long(struct options *o, const struct command *command,
                     int left, char **words)
{
    char *value = NULL;
    const struct row *r = find_long(command, words[0], &value);
    int used = 1;

    if (r == NULL)
        return unknown(command, words[0]);
    if (is_bare(r) && value != NULL) {
        complain("%s takes no value", r->name);
        return -1;
    }
    if (!is_bare(r) && value == NULL && left > 1)
        value = words[used++];
    return keep(o, r, value) == 0 ? used : -1;
}

/* Letters may share a word; a value follows in it, or is the next word. */
static int take_letters(struct options *o, const struct command *command,
                        int left, char **words)
{
    int used = 1;

    for (char *at = words[0] + 1; *at != '\0'; at++) {
        const struct row *r = find_letter(command, *at);
        char *value = NULL;

        if (r == NULL)
            return unknown(command, words[0]);
        if (r->kind != PLAIN && at[1] != '\0')
            value = at + 1;
        else if (r->kind != PLAIN && left > 1)
            value = words[used++];
        if (keep(o, r, value) != 0)
            return -1;
        if (r->kind != PLAIN)
            break;
    }
    return used;
}

static int take_word(struct options *o, const struct command *command,
                     char *word)
{
    if (o->words == command->most) {
        complain("%s: one argument too many: %s", command->name, word);
        return -1;
    }
    o->word[o->words++] = word;
    return 1;
}

/* A minus by itself, and one before a number, begin no option. */
static int is_option(const char *word)
{
    return word[0] == '-' && word[1] != '\0' && word[1] != '.' &&
           (word[1] < '0' || word[1] > '9');
}

static int take(struct options *o, const struct command *command, int left,
                char **words)
{
    if (!is_option(words[0]))
        return take_word(o, command, words[0]);
    if (words[0][1] == '-')
        return take_long(o, command, left, words);
    return take_letters(o, command, left, words);
}

static int complete(const struct options *o, const struct command *command)
{
    if (o->words < command->least) {
        complain("%s: too few arguments; see bhtf %s --help", command->name,
                 command->name);
        return TROUBLE;
    }
    if ((o->given & OPTION_REPLACE) && (o->given & OPTION_APPEND)) {
        complain("%s: --replace or --append, not both", command->name);
        return TROUBLE;
    }
    if ((o->given & OPTION_REPLACE) && (o->given & OPTION_UPDATE)) {
        complain("%s: --replace or --update, not both", command->name);
        return TROUBLE;
    }
    if ((o->given & OPTION_DROP) && !(o->given & OPTION_REPLACE)) {
        complain("%s: --drop goes with --replace", command->name);
        return TROUBLE;
    }
    return DONE;
}

int options_read(struct options *o, const struct command *command, int count,
                 char **words)
{
    int only_words = 0;
    int used;

    memset(o, 0, sizeof *o);
    o->word = words; /* never more of them than were read */
    o->wait = WAIT_USUAL;
    for (int i = 0; i < count; i += used) {
        used = 1;
        if (only_words)
            used = take_word(o, command, words[i]);
        else if (strcmp(words[i], "--") == 0)
            only_words = 1;
        else
            used = take(o, command, count - i, words + i);
        if (used < 0)
            return TROUBLE;
    }
    if (o->help || o->version)
        return DONE;
    if (o->given & OPTION_EPOCH) {
        /* One point at two epochs stands near itself. */
        o->given |= OPTION_ALLOW_NEAR;
        if (epoch_wanted(o, o->epoch, &o->epoch_number) != DONE)
            return TROUBLE;
    }
    return complete(o, command);
}

uint32_t mode_of(const struct options *o)
{
    if (o->given & OPTION_REPLACE)
        return BHTF_REPLACE;
    return o->given & OPTION_APPEND ? BHTF_APPEND : BHTF_NEW;
}
