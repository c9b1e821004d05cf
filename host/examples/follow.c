/* follow COPY < RECORDS: brings a station's copy up to what the office sent,
 * and names the points that changed.
 * cc follow.c $(pkg-config --cflags --libs bhtf) */
#include <bhtf_delta.h>

#include <stdio.h>
#include <stdlib.h>
#include <string.h>

static int complain(const char *words)
{
    fprintf(stderr, "follow: %s\n", words);
    return 1;
}

/* All of standard input; NULL if memory is short. */
static uint8_t *read_all(size_t *length)
{
    uint8_t *bytes = NULL;
    size_t room = 0;

    for (*length = 0;;) {
        uint8_t *more = realloc(bytes, room += 65536);

        if (more == NULL)
            return NULL;
        bytes = more;
        *length += fread(bytes + *length, 1, room - *length, stdin);
        if (*length < room)
            return bytes;
    }
}

static void print_changes(bhtf_file *f)
{
    static const char *const words[] = { "", "new", "gone", "changed",
                                         "damaged" };
    struct bhtf_change c = { 0, 0, 0, 0, 0, 0, 0, 0 };
    struct bhtf_file_about about;
    size_t length;

    bhtf_file_about(f, &about, sizeof about);
    while (bhtf_file_changes(f, &c) == BHTF_ACCEPTED && c.kind != 0) {
        const uint8_t *image = c.kind == BHTF_POINT_GONE
            ? bhtf_file_before(f, &length) : bhtf_file_image(f, &length);

        printf("%s %.*s\n", words[c.kind], (int)about.key_size,
               (const char *)image + c.key_offset);
    }
}

int main(int argc, char **argv)
{
    struct bhtf_file_options options = BHTF_FILE_OPTIONS;
    struct bhtf_applied done;
    struct bhtf_file_error why;
    uint32_t number;
    uint8_t *records;
    size_t length;
    bhtf_file *f;

    if (argc != 2)
        return complain("follow COPY < RECORDS");
    records = read_all(&length);
    options.flags = BHTF_FILE_WRITE;
    f = bhtf_file_open_with(argv[1], &options, &why);
    if (records == NULL || f == NULL)
        return complain(f == NULL ? why.words : "memory is short");
    number = bhtf_file_begin(f);
    if (number == BHTF_ACCEPTED)
        number = bhtf_file_apply(f, records, length, NULL, &done);
    if (number == BHTF_ACCEPTED)
        print_changes(f);
    if (number == BHTF_ACCEPTED)
        number = bhtf_file_commit(f);
    if (number != BHTF_ACCEPTED)
        complain(bhtf_file_error(f)->words);
    else
        printf("%lu applied, %lu passed over\n", (unsigned long)done.applied,
               (unsigned long)done.passed);
    free(records);
    return bhtf_file_close(f) == BHTF_ACCEPTED && number == BHTF_ACCEPTED
        ? 0 : 1;
}
