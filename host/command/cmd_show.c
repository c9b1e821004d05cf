/* show: what a delta would change, or changed, without changing anything. */
#include "commands.h"

#include "bhtf_delta.h"
#include "change.h"
#include "delta_words.h"
#include "image_header.h"
#include "progress.h"
#include "short_sum.h"

#include <errno.h>
#include <stdlib.h>
#include <string.h>

/* What a record is to the copy. */
enum fit { FIT_UNKNOWN, FIT_APPLIED, FIT_HAD, FIT_NONE, FIT_OTHER, FITS };

/* One that was read. */
struct sent {
    struct bhtf_delta head;
    const uint8_t *bytes;
};

struct showing {
    const struct options *o;
    const char *input;
    struct buffer stream;
    struct buffer records;  /* struct sent, in their order */
    size_t count;
    uint8_t *fits;          /* enum fit of each */
    size_t had;             /* how many the copy has */
    int has_copy;
    struct buffer before;   /* the copy */
    struct buffer now;      /* and what it becomes */
    uint8_t sum[BHTF_SUM];
    uint8_t *touched;       /* bytes of the copy that records it has wrote */
    size_t applied;
    size_t others;          /* records for which apply would refuse all */
};

static int same_sum(const uint8_t *a, const uint8_t *b)
{
    return memcmp(a, b, BHTF_SUM) == 0;
}

/* ---- the records ---- */

static int read_stream(struct showing *s)
{
    int standard = strcmp(s->o->word[0], "-") == 0;
    FILE *file = standard ? stdin : fopen(s->o->word[0], "r");
    int status = DONE;

    s->input = standard ? "standard input" : s->o->word[0];
    if (standard)
        tell_waiting("show", "a delta", s->o->quiet);
    if (file == NULL || buffer_read(&s->stream, file, SIZE_MAX / 2) != 0) {
        complain("%s: cannot be read: %s", s->input, strerror(errno));
        status = TROUBLE;
    }
    if (file != NULL && !standard)
        fclose(file);
    return status;
}

/* Marks the bytes that a record writes. */
static void touch(struct showing *s, const struct sent *r)
{
    struct bhtf_stretch at = { 0, 0, 0, 0 };

    while (bhtf_delta_next(r->bytes, &at))
        memset(s->touched + at.offset, 1, at.length);
}

/* Writes them, to what the copy becomes. */
static void write_record(struct showing *s, const struct sent *r)
{
    struct bhtf_stretch at = { 0, 0, 0, 0 };

    while (bhtf_delta_next(r->bytes, &at))
        memcpy(s->now.bytes + at.offset, r->bytes + at.at, at.length);
}

static const struct sent *record(const struct showing *s, size_t i)
{
    return (const struct sent *)s->records.bytes + i;
}

/* Every record of the stream, each checked whole. */
static int read_records(struct showing *s)
{
    size_t at = 0;

    do {
        struct sent r;
        uint32_t number = bhtf_delta_check(s->stream.bytes + at,
                                           s->stream.length - at, &r.head);

        r.bytes = s->stream.bytes + at;
        if (number != BHTF_ACCEPTED) {
            complain("%s: record %lu: %s", s->input,
                     (unsigned long)s->count + 1, delta_words(number));
            return TROUBLE;
        }
        if (buffer_put(&s->records, &r, sizeof r) != 0)
            return out_of_memory();
        s->count++;
        at += r.head.size;
    } while (at < s->stream.length);
    s->fits = calloc(s->count, 1);
    return s->fits == NULL ? out_of_memory() : DONE;
}

/* ---- what they are to the copy ---- */

/* Does a record go on where the one before it ends, or repeat it? */
static int goes_on(const struct bhtf_delta *front, const struct bhtf_delta *d)
{
    return same_sum(front->after, d->before) ||
           (same_sum(front->before, d->before) &&
            same_sum(front->after, d->after));
}

/* The records from `first` up to `end` are of this kind. */
static void mark(struct showing *s, size_t first, size_t end, enum fit fit)
{
    for (size_t i = first; i < end; i++) {
        s->fits[i] = (uint8_t)fit;
        if (fit == FIT_HAD && s->applied == 0)
            touch(s, record(s, i));
        s->had += fit == FIT_HAD;
        s->others += fit == FIT_NONE || fit == FIT_OTHER;
    }
}

/* As apply goes through them: one that begins at the copy is applied, one that
 * ends there is had, and so are those that lead up to it without a gap. */
static void fit_records(struct showing *s)
{
    size_t from = 0; /* the first that is to be led up from */

    for (size_t i = 0; i < s->count; i++) {
        const struct bhtf_delta *d = &record(s, i)->head;

        if (i > from && (d->image_len != s->now.length ||
                         !goes_on(&record(s, i - 1)->head, d))) {
            mark(s, from, i, FIT_NONE);
            from = i;
        }
        if (d->image_len != s->now.length) {
            mark(s, i, i + 1, FIT_OTHER);
        } else if (same_sum(d->after, s->sum)) {
            mark(s, from, i + 1, FIT_HAD);
        } else if (same_sum(d->before, s->sum)) {
            mark(s, from, i, FIT_NONE);
            mark(s, i, i + 1, FIT_APPLIED);
            write_record(s, record(s, i));
            memcpy(s->sum, d->after, BHTF_SUM);
            s->applied++;
        } else {
            continue;
        }
        from = i + 1;
    }
    mark(s, from, s->count, FIT_NONE);
}

static void print_records(const struct showing *s)
{
    static const char *const words[FITS] = {
        "", ": would be applied", ": the copy has it",
        ": does not go on from here", ": for another file"
    };

    for (size_t i = 0; i < s->count; i++) {
        const struct bhtf_delta *d = &record(s, i)->head;
        char before[SHORT_SUM], after[SHORT_SUM];

        sum_shorten(before, d->before);
        sum_shorten(after, d->after);
        printf("record %lu: %s -> %s, %lu bytes, for a file of %lu%s\n",
               (unsigned long)i + 1, before, after, (unsigned long)d->size,
               (unsigned long)d->image_len, words[s->fits[i]]);
    }
}

/* ---- the points ---- */

/* From the copy as it is to what it becomes. */
static int print_changes(struct showing *s)
{
    struct reckoning r;
    struct site old, now;
    char counts[256];
    int status;

    memset(&r, 0, sizeof r);
    memset(&now, 0, sizeof now);
    status = site_of_image(&old, s->before.bytes, s->before.length);
    if (status == DONE)
        status = site_of_image(&now, s->now.bytes, s->now.length);
    if (status == DONE)
        status = differences_print(&r, &old, &now, 0, stdout);
    if (status == DONE) {
        counts_words(counts, sizeof counts, &r);
        puts(counts);
    }
    reckoning_free(&r);
    site_close(&old);
    site_close(&now);
    return status;
}

static int is_touched(const struct showing *s, uint32_t from, uint32_t to)
{
    return from < to && memchr(s->touched + from, 1, to - from) != NULL;
}

/* The copy has the records: the points whose slot or text they wrote. How these
 * were before, and what is gone, is no more to be seen. */
static int print_touched(const struct showing *s)
{
    const struct header h = header_read(s->before.bytes);
    struct site site;
    struct buffer name = { NULL, 0, 0 };
    int status = site_of_image(&site, s->before.bytes, s->before.length);

    site_sort(&site);
    for (size_t i = 0; i < site.count && status == DONE; i++) {
        uint32_t slot = site.spots[i].slot;
        struct stretch text;

        if (!is_touched(s, slot_offset(&h, slot), slot_offset(&h, slot + 1)) &&
            !(slot_stretch(s->before.bytes, &h, slot, &text) &&
              is_touched(s, text.start, text.end)))
            continue;
        status = spot_show(&name, &site.spots[i]) == 0 ? DONE
                                                       : out_of_memory();
        if (status == DONE)
            printf("written %s\n", (const char *)name.bytes);
    }
    buffer_free(&name);
    site_close(&site);
    return status;
}

/* ---- the command ---- */

static int open_copy(struct showing *s)
{
    const char *file = s->o->word[1];
    uint32_t number, key_size;

    if (image_copy(&s->before, file, (unsigned)s->o->wait) != 0)
        return TROUBLE;
    number = ask_header(s->before.bytes, s->before.length, &key_size);
    if (number != BHTF_ACCEPTED)
        return refuse(file, number);
    s->touched = calloc(s->before.length, 1);
    if (s->touched == NULL ||
        buffer_put(&s->now, s->before.bytes, s->before.length) != 0)
        return out_of_memory();
    bhtf_sum(s->before.bytes, s->before.length, s->sum);
    s->has_copy = 1;
    return DONE;
}

/* A promise that the new bytes do not keep, as apply refuses it. */
static int is_kept(const struct showing *s)
{
    uint8_t sum[BHTF_SUM];
    uint32_t key_size;

    bhtf_sum(s->now.bytes, s->now.length, sum);
    if (same_sum(sum, s->sum) &&
        ask_header(s->now.bytes, s->now.length, &key_size) == BHTF_ACCEPTED)
        return 1;
    complain("%s: made wrongly: its new bytes do not give the image that it "
             "promises", s->input);
    return 0;
}

static int print_points(struct showing *s)
{
    int status = DONE;

    if (s->applied > 0)
        status = is_kept(s) ? print_changes(s) : TROUBLE;
    else if (s->had > 0)
        status = print_touched(s);
    if (status != DONE || s->others == 0)
        return status;
    complain("%s: bhtf apply would refuse %s: %lu of its records %s not go on "
             "from this copy", s->o->word[1], s->input,
             (unsigned long)s->others, s->others == 1 ? "does" : "do");
    return REFUSED;
}

int run_show(const struct options *o)
{
    struct showing s;
    int status;

    memset(&s, 0, sizeof s);
    s.o = o;
    status = read_stream(&s);
    if (status == DONE)
        status = read_records(&s);
    if (status == DONE && o->words > 1)
        status = open_copy(&s);
    if (status == DONE && s.has_copy)
        fit_records(&s);
    if (status == DONE && !o->quiet)
        print_records(&s);
    if (status == DONE && s.has_copy)
        status = print_points(&s);
    else if (status == DONE && !o->quiet)
        puts("bhtf show CHANGES COPY names the points, from a copy of the "
             "file");
    buffer_free(&s.stream);
    buffer_free(&s.records);
    buffer_free(&s.before);
    buffer_free(&s.now);
    free(s.touched);
    free(s.fits);
    return finish_output(status);
}
