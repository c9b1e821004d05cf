/* import: points on their way from an input into a file. */
#ifndef IMPORT_H
#define IMPORT_H

#include "csv_columns.h"
#include "delta_append.h"
#include "file_version.h"
#include "foreign.h"
#include "judge.h"
#include "progress.h"
#include "put_point.h"

/* A point as the input has it. */
struct incoming {
    unsigned long line;
    size_t name;         /* where it begins in the bytes */
    size_t text;
    size_t text_end;
    int none;            /* it has no text */
    uint32_t epoch;      /* where there is a column for it */
    unsigned long twice; /* an earlier line that says otherwise, or 0 */
    int again;           /* an earlier line says the same */
};

struct crowd {
    struct buffer bytes;
    struct incoming *all;
    size_t count;
    size_t room;
};

/* What would become of a point, in words; for a dry run. */
struct outcome {
    int kind;            /* enum change_kind */
    double harm;
    size_t words;        /* where they begin in the outcomes' bytes */
};

struct outcomes {
    struct buffer bytes;
    struct outcome *all;
    size_t count;
    size_t room;
};

struct import {
    const struct options *o;
    const char *input;
    FILE *file;
    int decimal;
    int weeks;               /* --epoch-unit week */
    uint64_t kind;           /* OPTION_GSI or OPTION_LANDXML, or 0 for CSV */
    struct buffer bytes;     /* all of the input */
    struct csv csv;
    struct arrivals arrivals; /* of another format, in place of the stream */
    struct columns columns;
    struct record record;
    struct record heading;   /* the first line, if it is one */
    struct record apart;     /* of texts that are taken apart */
    struct crowd crowd;
    struct image image;      /* open unless it is a dry run */
    struct delta_append append;
    struct buffer copy;      /* in its place in a dry run */
    struct buffer key;
    struct buffer old;       /* a point's text before */
    struct buffer merged;    /* a text with what is given in its place */
    struct buffer place;     /* words: input and line */
    uint32_t key_size;
    struct version version;  /* of the file */
    struct neighbours neighbours;
    struct movers movers;
    struct outcomes outcomes;
    unsigned dropped;        /* bits of what --drop names */
    struct progress progress;
    int first;               /* no record was read yet */
    int advised;             /* of decimal commas */
    unsigned lost;           /* bits of what was refused for a loss */
    int failed;              /* not the line, but what stores it */
    unsigned long taken;     /* points: new, changed or equal */
    unsigned long fresh;
    unsigned long changed;
    unsigned long refused;   /* lines */
    unsigned long stop_line; /* the first of them */
    int stop_status;
};

/* ---- words ---- */

int import_is_dry(const struct import *m);

/* "FILE: line N", for messages. */
const char *import_place(struct import *m, unsigned long line);

/* Are words about another refused line wanted? */
int import_is_told(struct import *m);

/* May the import go on after this status of a line? A dry run and
 * --keep-going do, and keep where an import would have stopped. */
int import_goes_on(struct import *m, int status, unsigned long line);

/* Does each line say its epoch? */
int import_is_dated(const struct import *m);

/* ---- storing ---- */

/* The image that points are put into. */
struct target import_target(const struct import *m);

/* Stores all points of the crowd, and judges them: DONE, or the status after a
 * complaint. */
int import_store(struct import *m);

/* Says what became of the points, or would in a dry run. */
int import_report_dry(struct import *m, int status);
int import_report(struct import *m, int status);

void import_store_free(struct import *m);

#endif
