/* points FILE NAME [TEXT]: prints a point's text, or stores one, over the file
 * layer. cc points.c $(pkg-config --cflags --libs bhtf) */
#include <bhtf_file.h>

#include <stdio.h>
#include <string.h>

static int complain(const char *words)
{
    fprintf(stderr, "points: %s\n", words);
    return 1;
}

static uint32_t print_text(bhtf_file *f, const uint8_t *key, size_t size)
{
    const uint8_t *text;
    size_t length;
    uint32_t number = bhtf_file_lookup(f, key, size, &text, &length);

    if (number == BHTF_ACCEPTED)
        printf("%.*s\n", (int)length, text == NULL ? "" : (const char *)text);
    return number;
}

int main(int argc, char **argv)
{
    struct bhtf_file_options options = BHTF_FILE_OPTIONS;
    struct bhtf_file_error why;
    uint8_t key[BHTF_KEY_MAX];
    uint32_t number;
    bhtf_file *f;
    size_t size;

    if (argc < 3)
        return complain("points FILE NAME [TEXT]");
    if (argc > 3)
        options.flags = BHTF_FILE_WRITE;
    f = bhtf_file_open_with(argv[1], &options, &why);
    if (f == NULL)
        return complain(why.words);
    number = bhtf_file_key(f, argv[2], key, &size); /* a long name is refused */
    if (number == BHTF_ACCEPTED && argc > 3)
        number = bhtf_file_replace(f, key, size, (const uint8_t *)argv[3],
                                   strlen(argv[3]));
    else if (number == BHTF_ACCEPTED)
        number = print_text(f, key, size);
    if (number != BHTF_ACCEPTED)
        complain(bhtf_file_error(f)->words);
    return bhtf_file_close(f) == BHTF_ACCEPTED && number == BHTF_ACCEPTED
        ? 0 : 1;
}
