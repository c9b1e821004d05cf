/* The file layer: how a file is opened, in a struct that may grow. */
#include "layer.h"

#include <stdio.h>
#include <string.h>

/* Bytes of the first struct of options; none was ever shorter. */
#define FIRST (offsetof(struct bhtf_file_options, with) + sizeof(void *))

static const struct bhtf_file_options usual = BHTF_FILE_OPTIONS;

static int is_zero(const uint8_t *bytes, size_t length)
{
    for (size_t i = 0; i < length; i++)
        if (bytes[i] != 0)
            return 0;
    return 1;
}

/* What a shorter struct does not have is as usual; what a longer one has after
 * what is known here must be unset. */
static int take(const struct bhtf_file_options *from,
                struct bhtf_file_options *to)
{
    *to = usual;
    if (from == NULL)
        return 1;
    if (from->size < FIRST)
        return 0;
    memcpy(to, from, from->size < sizeof *to ? from->size : sizeof *to);
    return from->size <= sizeof *to ||
           is_zero((const uint8_t *)from + sizeof *to,
                   from->size - sizeof *to);
}

uint32_t layer_take_options(const char *path,
                            const struct bhtf_file_options *options,
                            struct bhtf_file_how *how,
                            struct bhtf_file_error *why)
{
    struct bhtf_file_options all;
    char shown[LAYER_SHOWN];
    int known = take(options, &all);

    how->flags = all.flags & ~BHTF_FILE_ANY;
    how->wait = all.wait;
    how->give_up = all.give_up;
    how->with = all.with;
    if (known)
        return BHTF_ACCEPTED;
    if (why != NULL) {
        why->number = BHTF_FILE_MISUSE;
        why->error = 0;
        snprintf(why->words, sizeof why->words, "%s: the options are of a size "
                 "that this library does not know; begin with "
                 "BHTF_FILE_OPTIONS", layer_shown(path, shown));
    }
    return BHTF_FILE_MISUSE;
}

bhtf_file *bhtf_file_open_with(const char *path,
                               const struct bhtf_file_options *options,
                               struct bhtf_file_error *why)
{
    struct bhtf_file_how how;
    bhtf_file *f;

    if (layer_take_options(path, options, &how, why) != BHTF_ACCEPTED)
        return NULL;
    f = bhtf_file_open(path, &how, why);
    if (f == NULL || (options != NULL && options->flags & BHTF_FILE_ANY) ||
        layer_ask_file(f) == BHTF_ACCEPTED)
        return f;
    if (why != NULL)
        *why = f->why;
    bhtf_file_close(f);
    return NULL;
}
