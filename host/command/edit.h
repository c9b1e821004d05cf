/* Changes of single points, several of them as one change of the file. */
#ifndef EDIT_H
#define EDIT_H

#include "commands.h"
#include "delta_append.h"
#include "file_version.h"
#include "judge.h"
#include "put_point.h"

struct edit {
    const struct options *o;   /* of the command that opened the file */
    const char *place;         /* before messages: the file, or a line */
    const char *input;         /* whose lines these are; NULL: there is none */
    unsigned long line;        /* that is read; 0: there is none */
    struct image image;
    struct delta_append append;
    uint32_t key_size;
    struct version version;    /* of the file before */
    struct neighbours neighbours; /* before the first place was changed */
    int looked;                /* they are known */
    struct movers movers;
    uint64_t allowed;          /* bits of OPTION_ALLOW_.. */
    const struct buffer *typed; /* a text from standard input; may be NULL */
    struct buffer key;
    struct buffer old;         /* the point's text before, */
    int was_there;
    int had_text;
    unsigned long changed;     /* points */
};

/* Opens the file of the first word: DONE, or the status after a complaint. */
int edit_open(struct edit *e, const struct options *o);

/* Judges what was changed, and brings it to the file as one change. With a
 * status other than DONE, which is the answer then, or in a dry run, the file
 * stays as it is. */
int edit_close(struct edit *e, int status);

/* Each makes one change: DONE, or the status after a complaint. The point's
 * name is the second word. */
int edit_add(struct edit *e, const struct options *o);
int edit_set(struct edit *e, const struct options *o);
int edit_rename(struct edit *e, const struct options *o);
int edit_withdraw(struct edit *e, const struct options *o);
int edit_delete(struct edit *e, const struct options *o);

/* One of them by itself. */
int edit_once(const struct options *o,
              int (*one)(struct edit *, const struct options *));

#endif
