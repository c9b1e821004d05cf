/* A point's text from a file, and into one. */
#include "text_file.h"

#include "command_limits.h"
#include "progress.h"

#include <errno.h>
#include <fcntl.h>
#include <string.h>
#include <unistd.h>

/* Bytes that go in one step. */
enum { PART = 1 << 20 };

/* ---- in ---- */

static int read_parts(struct buffer *text, FILE *from, const char *input,
                      int quiet)
{
    const size_t most = (size_t)TEXT_MOST + 1;
    struct progress progress;
    size_t before;
    int done;

    progress_begin(&progress, "read", stream_length(from), quiet);
    do {
        before = text->length;
        done = buffer_read(text, from, before + PART < most ? before + PART
                                                            : most);
        progress_show_bytes(&progress, text->length);
    } while (done == 0 && text->length - before == PART);
    progress_end(&progress);
    if (done == 0)
        return DONE;
    complain("%s: cannot be read: %s", input, strerror(errno));
    return TROUBLE;
}

int text_read(struct buffer *text, const struct options *o)
{
    int standard = o->text_file == NULL || strcmp(o->text_file, "-") == 0;
    FILE *from = standard ? stdin : fopen(o->text_file, "rb");
    int status;

    if (from == NULL) {
        complain("%s: cannot be opened: %s", o->text_file, strerror(errno));
        return TROUBLE;
    }
    if (standard)
        tell_waiting(o->word[0], "the point's text", o->quiet);
    status = read_parts(text, from, standard ? "standard input" : o->text_file,
                        o->quiet);
    if (!standard)
        fclose(from);
    return status;
}

/* ---- out ---- */

static int write_empty(const char *path)
{
    int fd = open(path, O_WRONLY | O_CREAT | O_EXCL, 0666);

    if (fd >= 0 && close(fd) == 0)
        return DONE;
    complain("%s: cannot create: %s", path, strerror(errno));
    return TROUBLE;
}

static void copy_parts(uint8_t *to, const struct buffer *text, int quiet)
{
    struct progress progress;

    progress_begin(&progress, "written", text->length, quiet);
    for (size_t at = 0; at < text->length; at += PART) {
        size_t left = text->length - at;

        memcpy(to + at, text->bytes + at, left < PART ? left : PART);
        progress_show_bytes(&progress, at);
    }
    progress_end(&progress);
}

/* As a new control point file is made. */
int text_write(const struct buffer *text, const struct options *o)
{
    const struct bhtf_file_how how = { 0, 0, NULL, NULL };
    struct bhtf_file_error why;
    bhtf_file_new *made;

    if (text->length == 0)
        return write_empty(o->text_file);
    made = bhtf_file_new_begin(o->text_file, text->length, &how, &why);
    if (made != NULL) {
        copy_parts(bhtf_file_new_image(made), text, o->quiet);
        if (bhtf_file_new_end(made) == BHTF_ACCEPTED)
            return DONE;
    }
    complain("%s", why.words);
    return TROUBLE;
}
