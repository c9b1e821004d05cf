/* changes FILE N WORD: N changes of one writer, each told before the next. */
#include <bhtf_file.h>

#include <stdio.h>
#include <stdlib.h>
#include <string.h>

enum { KEY_SIZE = 12 };

int main(int argc, char **argv)
{
    const struct bhtf_file_how how = { BHTF_FILE_WRITE, 10000, NULL, NULL };
    struct bhtf_file_error why;
    uint8_t key[KEY_SIZE] = "CP-1";
    char text[64];
    bhtf_file *f;

    if (argc != 4)
        return 2;
    f = bhtf_file_open(argv[1], &how, &why);
    if (f == NULL) {
        fprintf(stderr, "%s\n", why.words);
        return 2;
    }
    for (int i = 0; i < atoi(argv[2]); i++) {
        snprintf(text, sizeof text, "%s %d", argv[3], i);
        if (bhtf_file_replace(f, key, sizeof key, (const uint8_t *)text,
                              strlen(text)) != 0) {
            fprintf(stderr, "%s\n", bhtf_file_error(f)->words);
            return 2;
        }
    }
    return bhtf_file_close(f) == 0 ? 0 : 2;
}
