/* Writes the image that create leaves to standard output. The bytes before
 * were not zero. The version is written as 1.0.1, which it was when the images
 * were made that are compared with it; create must have written 1.0.2.
 *   scramble K N L SEED */
#include "calls.h"

#include <stdio.h>
#include <stdlib.h>
#include <string.h>

static uint32_t number(const char *text)
{
    return (uint32_t)strtoul(text, NULL, 10);
}

int main(int argc, char **argv)
{
    size_t length;
    uint8_t *image;
    int done;

    if (argc != 5) {
        fputs("usage: scramble K N L SEED\n", stderr);
        return 2;
    }
    length = number(argv[3]);
    image = malloc(length);
    if (image == NULL)
        return 2;
    memset(image, 0x5A, length);
    done = subject.create(image, length, number(argv[1]), number(argv[2]),
                          number(argv[4])) == 0 &&
           image[7]-- == 2 &&
           fwrite(image, 1, length, stdout) == length && fflush(stdout) == 0;
    free(image);
    return done ? 0 : 1;
}
