/* apply: brings a station's copy of a file up to what deltas lead to. */
#include "commands.h"

#include "bhtf_delta.h"
#include "change.h"
#include "command_limits.h"
#include "delta_words.h"
#include "progress.h"
#include "short_sum.h"

#include <errno.h>
#include <stdlib.h>
#include <string.h>
#include <sys/stat.h>
#include <unistd.h>

/* ---- what was sent ---- */

struct refresh {
    const struct options *o;
    const char *input;
    struct buffer stream;       /* what was sent */
    struct bhtf_applied done;   /* of it */
    struct image image;         /* the copy; open unless it is a dry run */
    struct buffer was;          /* its bytes as they were */
    struct buffer copy;         /* of a dry run: those that it becomes */
    const uint8_t *now;         /* those, or the image's */
    struct site before;         /* its points as they were, unless quiet */
    char *changes;              /* what became of them, in lines */
};

static int is_dry(const struct refresh *r)
{
    return (r->o->given & OPTION_DRY_RUN) != 0;
}

/* Says what is wrong with a record, counted from 0. */
static int complain_of_record(const struct refresh *r, uint32_t record,
                              uint32_t number)
{
    complain("%s: record %lu: %s. %s is as it was", r->input,
             (unsigned long)record + 1, delta_words(number), r->o->word[0]);
    return TROUBLE;
}

static int refuse_length(const struct refresh *r, uint32_t i, uint32_t length,
                         uint64_t own)
{
    complain("%s: refused: record %lu of %s is for a file of %lu bytes, and "
             "this has %lu: it belongs to another file. %s is as it was",
             r->o->word[0], (unsigned long)i + 1, r->input,
             (unsigned long)length, (unsigned long)own, r->o->word[0]);
    return REFUSED;
}

/* Reads until the stream has `most` bytes, or ends. */
static int read_up_to(struct refresh *r, FILE *file, size_t most)
{
    if (buffer_read(&r->stream, file, most) == 0)
        return DONE;
    complain("%s: cannot be read: %s", r->input, strerror(errno));
    return TROUBLE;
}

/* A record's head says how much follows: what is none, or is longer than any
 * for the copy, is not read on. */
static int ask_head(const struct refresh *r, uint32_t record, size_t start,
                    uint64_t own, size_t *size)
{
    struct bhtf_delta d;
    uint32_t number = bhtf_delta_head(r->stream.bytes + start,
                                      r->stream.length - start, &d);

    *size = d.size;
    if (number != BHTF_ACCEPTED)
        return complain_of_record(r, record, number);
    if (own > 0 && d.size > own + BHTF_DELTA_MOST)
        return refuse_length(r, record, d.image_len, own);
    if (d.size > APPLY_MOST - start) {
        complain("%s: has more than %lu bytes; apply it in parts. %s is as it "
                 "was", r->input, (unsigned long)APPLY_MOST, r->o->word[0]);
        return TROUBLE;
    }
    return DONE;
}

/* Record by record, each head as it comes. */
static int read_each(struct refresh *r, FILE *file, uint64_t own)
{
    int status = DONE;

    for (uint32_t record = 0; status == DONE; record++) {
        size_t start = r->stream.length, size;

        status = read_up_to(r, file, start + BHTF_DELTA_HEAD);
        if (status == DONE && r->stream.length == start)
            break;
        if (status == DONE)
            status = ask_head(r, record, start, own, &size);
        if (status == DONE)
            status = read_up_to(r, file, start + size);
        if (status == DONE && r->stream.length < start + size)
            status = complain_of_record(r, record, BHTF_DELTA_CUT);
    }
    return status;
}

static int read_stream(struct refresh *r)
{
    int standard = r->o->words < 2 || strcmp(r->o->word[1], "-") == 0;
    FILE *file = standard ? stdin : fopen(r->o->word[1], "r");
    struct stat copy;
    int status;

    r->input = standard ? "standard input" : r->o->word[1];
    if (standard)
        tell_waiting(r->o->word[0], "a delta", r->o->quiet);
    if (file == NULL) {
        complain("%s: cannot be read: %s", r->input, strerror(errno));
        return TROUBLE;
    }
    status = read_each(r, file, stat(r->o->word[0], &copy) == 0 &&
                       S_ISREG(copy.st_mode) ? (uint64_t)copy.st_size : 0);
    if (!standard)
        fclose(file);
    return status;
}

/* ---- which records are refused ---- */

static int refuse_gap(const struct refresh *r, uint32_t i)
{
    complain("%s: refused: record %lu of %s does not go on from here: one in "
             "front of it is missing, it is older, or the copy was changed by "
             "others. Send the missing ones first (all that --delta wrote will "
             "do), or the whole file. %s is as it was", r->o->word[0],
             (unsigned long)i + 1, r->input, r->o->word[0]);
    return REFUSED;
}

/* The length of the images of a record that was read. */
static uint32_t length_of(const struct refresh *r, uint32_t record)
{
    struct bhtf_delta d;
    size_t at = 0;

    for (uint32_t i = 0; i <= record; i++) {
        bhtf_delta_head(r->stream.bytes + at, r->stream.length - at, &d);
        at += d.size;
    }
    return d.image_len;
}

static int refuse_records(const struct refresh *r, uint32_t number)
{
    uint32_t record = r->done.record;

    if (number == BHTF_DELTA_LENGTH)
        return refuse_length(r, record, length_of(r, record), r->was.length);
    if (number == BHTF_DELTA_GAP)
        return refuse_gap(r, record);
    if (number != BHTF_DELTA_FALSE)
        return number >= BHTF_DELTA_NONE
            ? complain_of_record(r, record, number)
            : refuse(r->o->word[0], number);
    complain("%s: made wrongly: its new bytes do not give the image that it "
             "promises. %s is as it was", r->input, r->o->word[0]);
    return TROUBLE;
}

/* ---- the copy ---- */

/* Takes the copy's bytes, and its writer's lock except in a dry run. */
static int open_copy(struct refresh *r)
{
    const char *path = r->o->word[0];
    uint32_t number, key_size;
    int status = DONE;

    if (is_dry(r))
        return copy_accepted(&r->was, r->o, &key_size);
    if (image_open(&r->image, path, to_change(r->o)) != 0)
        return TROUBLE;
    number = ask_header(r->image.bytes, r->image.length, &key_size);
    if (number != BHTF_ACCEPTED)
        status = refuse(path, number);
    else if (buffer_put(&r->was, r->image.bytes, r->image.length) != 0)
        status = out_of_memory();
    if (status != DONE)
        image_drop(&r->image);
    return status;
}

/* A dry run changes a copy of the copy. */
static int bring_up_dry(struct refresh *r)
{
    uint8_t *work = malloc(r->was.length);
    uint32_t number;

    if (work == NULL ||
        buffer_put(&r->copy, r->was.bytes, r->was.length) != 0) {
        free(work);
        return out_of_memory();
    }
    number = bhtf_delta_apply(r->copy.bytes, r->copy.length, r->stream.bytes,
                              r->stream.length, NULL, work, r->was.length,
                              &r->done);
    free(work);
    r->now = r->copy.bytes;
    return number == BHTF_ACCEPTED ? DONE : refuse_records(r, number);
}

static int bring_up(struct refresh *r)
{
    uint32_t number;

    if (is_dry(r))
        return bring_up_dry(r);
    number = bhtf_file_apply(r->image.file, r->stream.bytes, r->stream.length,
                             NULL, &r->done);
    r->now = r->image.bytes;
    if (number != BHTF_FILE_SYSTEM)
        return number == BHTF_ACCEPTED ? DONE : refuse_records(r, number);
    complain("%s", bhtf_file_error(r->image.file)->words);
    return TROUBLE;
}

/* What becomes of the points, kept until the change is done: whoever works
 * with the copy must know. */
static int keep_changes(struct refresh *r)
{
    struct reckoning reckoning;
    struct site after;
    char counts[256];
    size_t length;
    FILE *to = open_memstream(&r->changes, &length);
    int status = to == NULL ? out_of_memory()
        : site_of_image(&after, r->now, r->was.length);

    if (to == NULL)
        return status;
    memset(&reckoning, 0, sizeof reckoning);
    if (status == DONE)
        status = differences_print(&reckoning, &r->before, &after, 0, to);
    counts_words(counts, sizeof counts, &reckoning);
    fprintf(to, "%s\n", counts);
    reckoning_free(&reckoning);
    site_close(&after);
    return fclose(to) == 0 ? status : out_of_memory();
}

static int report(const struct refresh *r)
{
    char sum[SHORT_SUM];

    if (r->o->quiet)
        return DONE;
    if (r->changes != NULL)
        fputs(r->changes, stdout);
    printf("%lu record%s %sapplied, %lu passed over\n",
           (unsigned long)r->done.applied, r->done.applied == 1 ? "" : "s",
           is_dry(r) ? "would be " : "", (unsigned long)r->done.passed);
    sum_shorten(sum, r->done.sum);
    printf("%s %s %s\n", r->o->word[0], is_dry(r) ? "would be" : "is", sum);
    return finish_output(DONE);
}

static int refresh(struct refresh *r)
{
    int status = open_copy(r);

    if (status != DONE)
        return status;
    if (!r->o->quiet)
        status = site_of_image(&r->before, r->was.bytes, r->was.length);
    if (status == DONE)
        status = bring_up(r);
    if (status == DONE && r->done.applied > 0 && !r->o->quiet)
        status = keep_changes(r);
    if (!is_dry(r) && status != DONE)
        image_drop(&r->image);
    else if (!is_dry(r) && image_close(&r->image) != 0)
        status = TROUBLE;
    return status == DONE ? report(r) : status;
}

int run_apply(const struct options *o)
{
    struct refresh r;
    int status;

    memset(&r, 0, sizeof r);
    r.o = o;
    status = read_stream(&r);
    if (status == DONE)
        status = refresh(&r);
    buffer_free(&r.stream);
    site_close(&r.before);
    buffer_free(&r.was);
    buffer_free(&r.copy);
    free(r.changes);
    return status;
}
