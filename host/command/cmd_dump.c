/* dump: a file as text, from which load makes an equal one. The text is
 * described in bhtf(1). */
#include "commands.h"

#include "command_limits.h"
#include "progress.h"
#include "quoted.h"
#include "dump_head.h"

#include <stdlib.h>
#include <string.h>
#include <unistd.h>

/* A point, to be put in the order of names. */
struct entry {
    const uint8_t *key;
    uint32_t size;
};

struct dump {
    const struct options *o;
    const struct buffer *copy;
    uint32_t key_size;
    struct entry *entries;
    size_t count;
    struct buffer line;
};

static int compare(const void *a, const void *b)
{
    const struct entry *x = a, *y = b;

    return memcmp(x->key, y->key, x->size);
}

static size_t count_points(const struct buffer *copy)
{
    uint32_t slot, place;
    size_t count = 0;

    bhtf_walk(copy->bytes, copy->length, 0, &slot, &place);
    while (place != 0) {
        count++;
        bhtf_walk(copy->bytes, copy->length, slot + 1, &slot, &place);
    }
    return count;
}

/* All points, by the bytes of their names: DONE or TROUBLE. */
static int gather(struct dump *d)
{
    uint32_t slot, place;
    size_t i = 0;

    d->count = count_points(d->copy);
    d->entries = calloc(d->count + 1, sizeof *d->entries);
    if (d->entries == NULL)
        return out_of_memory();
    bhtf_walk(d->copy->bytes, d->copy->length, 0, &slot, &place);
    while (place != 0) {
        d->entries[i].key = d->copy->bytes + place;
        d->entries[i++].size = d->key_size;
        bhtf_walk(d->copy->bytes, d->copy->length, slot + 1, &slot, &place);
    }
    qsort(d->entries, d->count, sizeof *d->entries, compare);
    return DONE;
}

static int leave_out_point(struct dump *d, const uint8_t *key, uint32_t number)
{
    struct buffer name = { NULL, 0, 0 };
    int status = name_show(&name, key, d->key_size) == 0
        ? leave_out(d->o->word[0], &name, number) : out_of_memory();

    buffer_free(&name);
    return status;
}

/* Name and text, or a minus for a point without one. */
static int print_point(struct dump *d, size_t i)
{
    const uint8_t *key = d->entries[i].key;
    uint32_t offset, length;
    uint32_t number = bhtf_lookup(d->copy->bytes, d->copy->length, key,
                                  d->key_size, &offset, &length);
    int done;

    /* A name that stands there twice is found once. */
    if (i > 0 && compare(&d->entries[i - 1], &d->entries[i]) == 0)
        number = BHTF_PRESENT;
    if (number != BHTF_ACCEPTED)
        return leave_out_point(d, key, number);
    d->line.length = 0;
    /* load puts the padding back */
    done = quoted_put_name(&d->line, key, d->key_size) |
           buffer_put_byte(&d->line, ' ');
    fwrite(d->line.bytes, 1, d->line.length, stdout);
    if (offset == 0)
        putchar('-');
    else
        done |= quoted_print(stdout, d->copy->bytes + offset, length);
    putchar('\n');
    return done == 0 ? DONE : out_of_memory();
}

static int print_points(struct dump *d)
{
    struct progress progress;
    int worst = DONE;

    progress_begin(&progress, "written", d->count,
                   d->o->quiet || isatty(STDOUT_FILENO));
    for (size_t i = 0; i < d->count && worst != TROUBLE; i++) {
        int status = print_point(d, i);

        worst = status > worst ? status : worst;
        progress_show(&progress, (unsigned long)i + 1, i + 1);
    }
    progress_end(&progress);
    return worst;
}

static int print_terms(struct dump *d)
{
    struct dump_head head;

    dump_head_read(&head, d->copy->bytes, d->copy->length);
    printf("bhtf-dump %u\n", DUMP_VERSION);
    if (dump_head_put(&head, &d->line) != 0)
        return out_of_memory();
    fwrite(d->line.bytes, 1, d->line.length, stdout);
    return DONE;
}

static int print_dump(struct dump *d)
{
    int status = gather(d);

    if (status == DONE)
        status = print_terms(d);
    if (status == DONE)
        status = print_points(d);
    if (status != TROUBLE)
        puts("end");
    return finish_output(status);
}

int run_dump(const struct options *o)
{
    struct buffer copy = { NULL, 0, 0 };
    struct dump d;
    int status;

    memset(&d, 0, sizeof d);
    d.o = o;
    d.copy = &copy;
    status = copy_accepted(&copy, o, &d.key_size);
    if (status == DONE)
        status = print_dump(&d);
    free(d.entries);
    buffer_free(&d.line);
    buffer_free(&copy);
    return status;
}
