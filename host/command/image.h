/* A file as an image in memory, over the library's file layer. */
#ifndef IMAGE_H
#define IMAGE_H

#include "bhtf_file.h"
#include "buffer.h"
#include "log_append.h"

#include <signal.h>
#include <stdint.h>

struct image {
    const char *path;
    bhtf_file *file;
    bhtf_file_new *created; /* instead, if it is a new one */
    uint8_t *bytes;  /* never NULL once it is open. To be written to only if the
                        file is new, or as image_writable answers them */
    size_t length;
    int writing;     /* opened to be changed */
    int sync;        /* changes are on the disk when they are told */
    int committed;   /* closing brought the change to the file */
    int unsure;      /* whether it did: the disk failed on the way */
    const volatile sig_atomic_t *stop; /* ends a wait for locks; may be NULL */
    struct bhtf_file_error why; /* a new one cannot be made */
    struct log_append log;
};

/* How a file is opened: what the command line says of it. */
struct manner {
    int writing;
    unsigned wait;   /* seconds for all locks together */
    int sync;
};

/* What answers an int answers 0, or -1 after a complaint. */

/* Makes a new file of `length` zero bytes, without a name until it is closed.
 * An existing file is left alone. */
int image_create(struct image *i, const char *path, size_t length, int sync);

/* Opens an existing file, to be read or to be changed. */
int image_open(struct image *i, const char *path, struct manner how);

/* Answers a writer's bytes, to be changed otherwise than by calls on i->file. */
uint8_t *image_writable(struct image *i);

/* Brings what was changed to the file, as one change, and gives the locks
 * back. With an opened file this may fail after the change: `committed` and
 * `unsure` tell what became of it. */
int image_close(struct image *i);

/* Closes it; what was changed is forgotten, and so is a file just created. */
void image_drop(struct image *i);

/* Copies a whole file under its lock, which is given back. */
int image_copy(struct buffer *copy, const char *path, unsigned wait);

#endif
