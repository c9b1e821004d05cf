/* A file's log, written as the file is changed.
 *
 * An entry is on the disk before its change is in the file. One whose change
 * never came there is told by its sums: the next entry, or the file, is what
 * it was before. */
#include "log_append.h"

#include "complain.h"
#include "coords.h"
#include "log_file.h"
#include "quoted.h"

#include <errno.h>
#include <fcntl.h>
#include <pwd.h>
#include <stdio.h>
#include <stdlib.h>
#include <string.h>
#include <time.h>
#include <unistd.h>

/* Bytes of the command line that an entry has. */
enum { COMMAND_MOST = 300 };

static int is_wanted;
static char command_line[COMMAND_MOST + 3];

/* What is longer is cut. */
void log_words(int count, char **words)
{
    size_t length = 0;

    for (int i = 0; i < count && length < COMMAND_MOST; i++)
        length += (size_t)snprintf(command_line + length,
                                   COMMAND_MOST - length, "%s%s",
                                   i == 0 ? "" : " ", words[i]);
    if (length >= COMMAND_MOST)
        strcpy(command_line + COMMAND_MOST - 1, "..");
}

void log_wanted(int wanted)
{
    const char *setting = getenv("BHTF_LOG");

    is_wanted = wanted || (setting != NULL && setting[0] != '\0' &&
                           strcmp(setting, "no") != 0);
}

static int fail(const char *path, const char *what)
{
    complain("%s: %s: %s", path, what, strerror(errno));
    return -1;
}

int log_begin(struct log_append *l, const char *file, const uint8_t *image,
              size_t length)
{
    memset(l, 0, sizeof *l);
    l->path = log_path(file);
    if (l->path == NULL) {
        out_of_memory();
        return -1;
    }
    if (!is_wanted && access(l->path, F_OK) != 0) {
        log_end(l);
        return 0;
    }
    if (buffer_put(&l->before, image, length) == 0)
        return 0;
    out_of_memory();
    return -1;
}

void log_end(struct log_append *l)
{
    free(l->path);
    l->path = NULL;
    buffer_free(&l->before);
}

/* ---- an entry ---- */

static int put_words(struct buffer *to, const char *words)
{
    return buffer_put(to, words, strlen(words));
}

static int put_who(struct buffer *to)
{
    const struct passwd *user = getpwuid(getuid());
    char who[320], host[256] = "";

    gethostname(host, sizeof host - 1);
    if (user != NULL)
        snprintf(who, sizeof who, "%.60s@%.250s", user->pw_name, host);
    else
        snprintf(who, sizeof who, "%lu@%.250s", (unsigned long)getuid(), host);
    return quoted_put(to, (const uint8_t *)who, strlen(who));
}

static int put_head(struct buffer *to, unsigned long number)
{
    char head[80], when[32];
    time_t now = time(NULL);
    struct tm utc;

    gmtime_r(&now, &utc);
    strftime(when, sizeof when, "%Y-%m-%dT%H:%M:%SZ", &utc);
    snprintf(head, sizeof head, "change %lu %s ", number, when);
    return put_words(to, head) | put_who(to) | buffer_put_byte(to, ' ') |
           quoted_put(to, (const uint8_t *)command_line,
                      strlen(command_line)) | buffer_put_byte(to, '\n');
}

static int put_state(struct buffer *to, const char *word, const uint8_t *image,
                     size_t length)
{
    char sum[SUM_DIGITS + 1];

    sum_show(sum, image, length);
    return put_words(to, word) | put_words(to, sum) |
           buffer_put_byte(to, '\n');
}

static int put_text(struct buffer *to, const struct spot *s)
{
    if (s == NULL)
        return put_words(to, " absent");
    if (s->kind == SPOT_BARE || s->kind == SPOT_DAMAGED)
        return put_words(to, " none");
    return buffer_put_byte(to, ' ') |
           quoted_put(to, s->text.bytes, s->text.length);
}

static int same_spot(const struct spot *a, const struct spot *b)
{
    return a != NULL && b != NULL && a->kind == b->kind &&
           same_piece(a->text, b->text);
}

/* A line for each point that is not as it was. */
static int put_points(struct buffer *to, struct site *old, struct site *now)
{
    struct merge m = { old, now, 0, 0 };
    const struct spot *a, *b;
    int done = 0;

    site_sort(old);
    site_sort(now);
    while (done == 0 && merge_next(&m, &a, &b)) {
        const struct spot *named = a != NULL ? a : b;

        if (same_spot(a, b))
            continue;
        done |= quoted_put(to, named->name, named->name_length);
        done |= put_text(to, a) | put_text(to, b) | buffer_put_byte(to, '\n');
    }
    return done;
}

static int put_changes(struct buffer *to, const struct buffer *before,
                       const uint8_t *image, size_t length)
{
    struct site old, now;
    int done = 0;

    if (site_of(&old, before->bytes, before->length) != DONE)
        done = -1;
    if (site_of(&now, image, length) != DONE)
        done = -1;
    if (done == 0)
        done = put_points(to, &old, &now);
    site_close(&old);
    site_close(&now);
    return done;
}

static int put_sum(struct buffer *to, const char *last, size_t start)
{
    struct buffer all = { NULL, 0, 0 };
    char sum[SUM_DIGITS + 1];
    int done = buffer_put(&all, last, SUM_DIGITS) |
               buffer_put(&all, to->bytes + start, to->length - start);

    if (done == 0)
        sum_show(sum, all.bytes, all.length);
    buffer_free(&all);
    return done | put_words(to, "sum ") | put_words(to, sum) |
           buffer_put_byte(to, '\n');
}

/* ---- the file ---- */

static int write_all(const char *path, int fd, const struct buffer *bytes)
{
    size_t done = 0;

    while (done < bytes->length) {
        ssize_t written = write(fd, bytes->bytes + done, bytes->length - done);

        if (written < 0 && errno != EINTR)
            return fail(path, "cannot be written to");
        done += written < 0 ? 0 : (size_t)written;
    }
    return 0;
}

static int append(const char *path, const struct buffer *bytes, int sync)
{
    int fd = open(path, O_WRONLY | O_APPEND | O_CREAT | O_CLOEXEC | O_NOCTTY,
                  0666);
    int done;

    if (fd < 0)
        return fail(path, "cannot open");
    done = write_all(path, fd, bytes);
    if (done == 0 && sync && fsync(fd) != 0)
        done = fail(path, "cannot be written to the disk");
    if (close(fd) != 0 && done == 0)
        done = fail(path, "cannot be closed");
    return done;
}

/* Goes to the end of the log; warns of one that is not what it was. */
static int find_end(const char *path, struct log_reader *r)
{
    struct log_entry e;
    int there = log_open(r, path);
    int sound = 1;

    if (there < 1 || r->bytes.length == 0)
        return there < 0 ? -1 : 0;
    while (log_next(r, &e)) {
        sound &= e.sound;
        log_entry_free(&e);
    }
    log_entry_free(&e);
    if (r->wrong != NULL) {
        complain("%s: %s; nothing is changed. bhtf log says where; put it "
                 "aside, and a new one is begun with --log", path, r->wrong);
        return -1;
    }
    if (!sound)
        complain("%s: warning: an entry was changed or taken away; bhtf log "
                 "says which", path);
    return 1;
}

int log_put(struct log_append *l, const uint8_t *image, size_t length,
            int sync)
{
    struct buffer entry = { NULL, 0, 0 };
    struct log_reader r;
    size_t start;
    int there, done;

    if (l->path == NULL || (l->before.length == length &&
                            memcmp(l->before.bytes, image, length) == 0))
        return 0;
    there = find_end(l->path, &r);
    done = there == 0 ? put_words(&entry, "bhtf-log 1\n") : 0;
    start = entry.length;
    if (there >= 0) {
        done |= put_head(&entry, r.number + 1);
        done |= put_state(&entry, "from ", l->before.bytes, l->before.length);
        done |= put_state(&entry, "to ", image, length);
        done |= put_changes(&entry, &l->before, image, length);
        done |= put_sum(&entry, r.sum, start);
        done = done == 0 ? append(l->path, &entry, sync) : -1;
    }
    log_close(&r);
    buffer_free(&entry);
    return there < 0 ? -1 : done;
}

int log_start(const char *file)
{
    char *path = is_wanted ? log_path(file) : NULL;
    struct buffer head = { NULL, 0, 0 };
    int done = 0;

    if (path != NULL && access(path, F_OK) != 0)
        done = put_words(&head, "bhtf-log 1\n") == 0 ? append(path, &head, 1)
                                                     : -1;
    buffer_free(&head);
    free(path);
    return done;
}
