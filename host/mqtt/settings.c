/* Options and the configuration file. */
#include "settings.h"

#include "log.h"
#include "wire.h"

#include <ctype.h>
#include <errno.h>
#include <stddef.h>
#include <stdio.h>
#include <stdlib.h>
#include <string.h>

enum kind { TEXT, NUMBER, FLAG, SECRET };

struct option {
    const char *name;
    char letter;        /* as mosquitto_pub has it, or 0 */
    enum kind kind;
    size_t at;
    long least, most;   /* of a number */
};

#define AT(field) offsetof(struct settings, field)

static const struct option options[] = {
    { "host", 'h', TEXT, AT(host), 0, 0 },
    { "port", 'p', NUMBER, AT(port), 1, 65535 },
    { "username", 'u', TEXT, AT(user), 0, 0 },
    { "password", 'P', SECRET, AT(password), 0, 0 },
    { "id", 'i', TEXT, AT(id), 0, 0 },
    { "keepalive", 'k', NUMBER, AT(keepalive), 5, 65535 },
    { "cafile", 0, TEXT, AT(cafile), 0, 0 },
    { "capath", 0, TEXT, AT(capath), 0, 0 },
    { "cert", 0, TEXT, AT(cert), 0, 0 },
    { "key", 0, TEXT, AT(key), 0, 0 },
    { "psk", 0, SECRET, AT(psk), 0, 0 },
    { "psk-identity", 0, TEXT, AT(psk_identity), 0, 0 },
    { "site", 0, TEXT, AT(site), 0, 0 },
    { "file", 0, TEXT, AT(file), 0, 0 },
    { "name", 0, TEXT, AT(name), 0, 0 },
    { "chunk", 0, NUMBER, AT(chunk), 256, 262144 },
    { "stretch", 0, NUMBER, AT(stretch), 4096, 16777216 },
    { "window", 0, NUMBER, AT(window), 1, 64 },
    { "rate", 0, NUMBER, AT(rate), 1, 1000000000 },
    { "longest", 0, NUMBER, AT(longest), 4096, 1073741824 },
    { "wait", 0, NUMBER, AT(wait), 1, 86400 },
    { "backoff", 0, NUMBER, AT(backoff), 1, 3600 },
    { "sign", 0, TEXT, AT(sign), 0, 0 },
    { "verify", 0, TEXT, AT(verify), 0, 0 },
    { "once", 0, FLAG, AT(once), 0, 0 },
    { "replace", 0, FLAG, AT(replace), 0, 0 },
    { "take-over", 0, FLAG, AT(take_over), 0, 0 },
};

enum { OPTIONS = sizeof options / sizeof *options };

static const char help[] =
    "bhtf-mqtt publish FILE      publishes each change of a file at a broker\n"
    "bhtf-mqtt follow COPY       keeps a copy equal to what is published\n"
    "bhtf-mqtt status            which station has which state; 1 if one is behind\n"
    "\n"
    "  -c, --config FILE         lines `name = value`, named as the long options\n"
    "      --site WORD           of the topics: bhtf/1/SITE/FILE/..\n"
    "      --file WORD           of the topics; the file's name without .bhtf\n"
    "      --name WORD           of the station, for follow; the machine's name\n"
    "  -h, --host NAME           of the broker; localhost\n"
    "  -p, --port NUMBER         1883, and 8883 with TLS\n"
    "  -u, --username WORD       the password stands in the configuration file,\n"
    "                            or in the environment as BHTF_MQTT_PASSWORD\n"
    "  -i, --id WORD             bhtf/SITE/FILE/COMMAND/NAME\n"
    "  -k, --keepalive SECONDS   300\n"
    "      --cafile, --capath, --cert, --key FILE    for TLS\n"
    "      --psk-identity WORD   for TLS; the key is psk in the configuration file\n"
    "      --once                ends when the broker has the file, or the copy is\n"
    "                            equal\n"
    "      --wait SECONDS        with --once and status; 30\n"
    "      --replace             follow: a copy that is none of the office's states\n"
    "                            is replaced\n"
    "      --take-over           publish: this is the office now, and no other\n"
    "      --chunk BYTES         publish: of data in a message; 4096\n"
    "      --stretch BYTES       publish: of a snapshot; 16384\n"
    "      --rate BYTES          a second, of the slowest line: refuses a chunk\n"
    "                            that takes half of keepalive\n"
    "      --window NUMBER       follow: messages on their way at a time; 8\n"
    "      --longest BYTES       follow: of an image that is taken; 1 GiB\n"
    "      --backoff SECONDS     most between two tries to connect; 60\n"
    "      --sign FILE           publish: private key, Ed25519, PEM\n"
    "      --verify FILE         follow: public key; other heads are refused\n"
    "  -q, --quiet               only trouble is told\n"
    "  -v, --verbose             more is told\n"
    "      --help, --version\n"
    "\n"
    "Exit status: 0 done, or asked to end; 1 refused, or a station is behind;\n"
    "2 trouble; 78 what it was told is wrong.\n";

static int wrong(const char *what, const char *which)
{
    log_trouble("%s: %s", which, what);
    return MISCONFIGURED;
}

static int set(struct settings *s, const struct option *o, const char *value,
               const char *shown)
{
    char *end, *field = (char *)s + o->at;
    long number;

    if (o->kind == FLAG) {
        *(int *)(void *)field = strcmp(value, "no") != 0;
        return DONE;
    }
    if (o->kind != NUMBER) {
        free(*(char **)(void *)field);
        *(char **)(void *)field = strdup(value);
        return DONE;
    }
    errno = 0;
    number = strtol(value, &end, 10);
    if (errno != 0 || end == value || *end != '\0' || number < o->least ||
        number > o->most) {
        log_trouble("%s: a number from %ld to %ld is wanted", shown, o->least,
                    o->most);
        return MISCONFIGURED;
    }
    *(long *)(void *)field = number;
    return DONE;
}

static const struct option *by_name(const char *name)
{
    for (int i = 0; i < OPTIONS; i++)
        if (strcmp(options[i].name, name) == 0)
            return &options[i];
    return NULL;
}

/* ---- the configuration file ---- */

static char *trim(char *text)
{
    size_t n;

    while (isspace((unsigned char)*text))
        text++;
    n = strlen(text);
    while (n > 0 && isspace((unsigned char)text[n - 1]))
        text[--n] = '\0';
    return text;
}

static int read_line(struct settings *s, char *line, const char *path)
{
    char *name = trim(line), *value;
    const struct option *o;

    if (*name == '\0' || *name == '#')
        return DONE;
    value = strchr(name, '=');
    if (value != NULL)
        *value++ = '\0';
    o = by_name(trim(name));
    if (o == NULL || (value == NULL && o->kind != FLAG)) {
        log_trouble("%s: %s: no such setting, or it has no value", path, name);
        return MISCONFIGURED;
    }
    return set(s, o, value != NULL ? trim(value) : "yes", name);
}

static int read_config(struct settings *s, const char *path)
{
    FILE *file = fopen(path, "r");
    char line[1024];
    int status = DONE;

    if (file == NULL)
        return wrong(strerror(errno), path);
    while (status == DONE && fgets(line, sizeof line, file) != NULL)
        status = read_line(s, line, path);
    fclose(file);
    return status;
}

/* ---- options ---- */

static const struct option *by_word(const char *word, const char **value)
{
    static char name[32];
    const char *equal;

    *value = NULL;
    if (word[0] != '-')
        return NULL;
    if (word[1] != '-') {
        for (int i = 0; i < OPTIONS; i++)
            if (options[i].letter != 0 && options[i].letter == word[1] &&
                word[2] == '\0')
                return &options[i];
        return NULL;
    }
    equal = strchr(word, '=');
    snprintf(name, sizeof name, "%.*s",
             equal != NULL ? (int)(equal - word - 2) : (int)strlen(word + 2),
             word + 2);
    *value = equal != NULL ? equal + 1 : NULL;
    return by_name(name);
}

static int is(const char *word, const char *a, const char *b)
{
    return strcmp(word, a) == 0 || strcmp(word, b) == 0;
}

/* One option; *i is then at its last word. */
static int read_option(struct settings *s, int argc, char **argv, int *i)
{
    const char *word = argv[*i], *value;
    const struct option *o = by_word(word, &value);

    if (is(word, "-q", "--quiet") || is(word, "-v", "--verbose")) {
        log_level = is(word, "-q", "--quiet") ? LOG_QUIET : LOG_ALL;
        return DONE;
    }
    if (is(word, "-c", "--config")) {
        (*i)++;
        return DONE;
    }
    if (o == NULL)
        return wrong("no such option; --help lists them", word);
    if (o->kind == SECRET)
        return wrong("everybody on the machine can read arguments: it stands in "
                     "the configuration file", o->name);
    if (o->kind == FLAG)
        return set(s, o, "yes", word);
    if (value == NULL && *i + 1 == argc)
        return wrong("a value is missing", word);
    return set(s, o, value != NULL ? value : argv[++*i], word);
}

/* The configuration file first, wherever it stands: options have the last
 * word. */
static int read_configs(struct settings *s, int argc, char **argv)
{
    int status = DONE;

    for (int i = 1; i < argc && status == DONE; i++)
        if (is(argv[i], "-c", "--config")) {
            if (i + 1 == argc)
                return wrong("a value is missing", argv[i]);
            status = read_config(s, argv[++i]);
        }
    return status;
}

static int read_words(struct settings *s, int argc, char **argv)
{
    const char *word[2] = { NULL, NULL };
    int words = 0;

    for (int i = 1; i < argc; i++) {
        int status = DONE;

        if (argv[i][0] == '-')
            status = read_option(s, argc, argv, &i);
        else if (words == 2)
            status = wrong("too many words", argv[i]);
        else
            word[words++] = argv[i];
        if (status != DONE)
            return status;
    }
    if (words == 0)
        return wrong("publish, follow or status is wanted; --help says more",
                     "bhtf-mqtt");
    if (strcmp(word[0], "publish") == 0)
        s->command = PUBLISH;
    else if (strcmp(word[0], "follow") == 0)
        s->command = FOLLOW;
    else if (strcmp(word[0], "status") == 0)
        s->command = STATUS;
    else
        return wrong("publish, follow or status is wanted", word[0]);
    s->path = word[1];
    if ((s->command == STATUS) != (words == 1))
        return wrong(words == 1 ? "a file is wanted" : "no file is wanted",
                     word[0]);
    return DONE;
}

/* ---- what was left open ---- */

static void take_file_name(struct settings *s)
{
    const char *name;
    size_t n;

    if (s->file != NULL || s->path == NULL)
        return;
    name = strrchr(s->path, '/');
    name = name != NULL ? name + 1 : s->path;
    s->file = strdup(name);
    n = strlen(s->file);
    if (n > 5 && strcmp(s->file + n - 5, ".bhtf") == 0)
        s->file[n - 5] = '\0';
}

static int check_word(const char *word, const char *option)
{
    if (word == NULL)
        return wrong("is missing", option);
    if (!wire_word(word))
        return wrong("letters, digits and - _ . are wanted, at most 32", option);
    return DONE;
}

static int complete(struct settings *s)
{
    char host[256] = "", id[256];
    int status;

    take_file_name(s);
    if (s->name == NULL && s->command == FOLLOW) {
        FILE *f = fopen("/etc/hostname", "r");

        if (f != NULL) {
            if (fgets(host, sizeof host, f) == NULL)
                host[0] = '\0';
            fclose(f);
        }
        s->name = strdup(trim(host));
    }
    if (s->command != FOLLOW && s->name == NULL)
        s->name = strdup(s->command == PUBLISH ? "office" : "status");
    status = check_word(s->site, "--site");
    if (status == DONE)
        status = check_word(s->file, "--file");
    if (status == DONE)
        status = check_word(s->name, "--name");
    if (status != DONE)
        return status;
    if (s->command == FOLLOW && strcmp(s->name, "office") == 0)
        return wrong("a station cannot have this name", "--name office");
    snprintf(s->prefix, sizeof s->prefix, "bhtf/1/%s/%s/", s->site, s->file);
    if (s->id == NULL) {
        static const char *const role[] = { "publish", "follow", "status" };

        snprintf(id, sizeof id, "bhtf/%s/%s/%s/%s", s->site, s->file,
                 role[s->command], s->name);
        s->id = strdup(id);
    }
    if (s->password == NULL && getenv("BHTF_MQTT_PASSWORD") != NULL)
        s->password = strdup(getenv("BHTF_MQTT_PASSWORD"));
    if (s->port == 0)
        s->port = s->cafile != NULL || s->capath != NULL || s->psk != NULL
            ? 8883 : 1883;
    if (s->rate > 0 && 2 * (s->chunk + 128) / s->rate >= s->keepalive)
        return wrong("at --rate a chunk takes half of --keepalive or longer: the "
                     "line would be given up before it is through", "--chunk");
    return DONE;
}

int settings_read(struct settings *s, int argc, char **argv)
{
    int status;

    memset(s, 0, sizeof *s);
    s->host = strdup("localhost");
    s->keepalive = 300;
    s->chunk = 4096;
    s->stretch = 16384;
    s->window = 8;
    s->longest = 1073741824;
    s->wait = 30;
    s->backoff = 60;
    for (int i = 1; i < argc; i++) {
        if (strcmp(argv[i], "--help") == 0) {
            fputs(help, stdout);
            return -1;
        }
        if (strcmp(argv[i], "--version") == 0) {
            puts("bhtf-mqtt " VERSION);
            return -1;
        }
    }
    status = read_configs(s, argc, argv);
    if (status == DONE)
        status = read_words(s, argc, argv);
    return status == DONE ? complete(s) : status;
}
