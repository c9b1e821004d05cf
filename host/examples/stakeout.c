/* stakeout FILE NAME EASTING NORTHING: where the prism must go to stand on a
 * point, from where it is. cc stakeout.c $(pkg-config --cflags --libs bhtf) -lm
 */
#include <bhtf_file.h>

#include <math.h>
#include <stdio.h>
#include <stdlib.h>

static int complain(const char *words)
{
    fprintf(stderr, "stakeout: %s\n", words);
    return 1;
}

/* A point's text is easting,northing,height,note. */
static int read_place(bhtf_file *f, const char *name, double *easting,
                      double *northing)
{
    uint8_t key[BHTF_KEY_MAX], text[4096];
    size_t size, length;
    char *end;

    if (bhtf_file_key(f, name, key, &size) != BHTF_ACCEPTED ||
        bhtf_file_copy(f, key, size, text, sizeof text - 1, &length) !=
        BHTF_ACCEPTED)
        return complain(bhtf_file_error(f)->words);
    text[length] = '\0';
    *easting = strtod((const char *)text, &end);
    if (end == (char *)text || *end != ',')
        return complain("the text is not coordinates");
    *northing = strtod(end + 1, &end);
    return *end == ',' ? 0 : complain("the text is not coordinates");
}

int main(int argc, char **argv)
{
    struct bhtf_file_error why;
    double easting, northing, east, north;
    bhtf_file *f;
    int status;

    if (argc != 5)
        return complain("stakeout FILE NAME EASTING NORTHING");
    f = bhtf_file_open_with(argv[1], NULL, &why);
    if (f == NULL)
        return complain(why.words);
    status = read_place(f, argv[2], &easting, &northing);
    if (status == 0) {
        east = easting - atof(argv[3]);
        north = northing - atof(argv[4]);
        printf("%s: %.3f m: east %+.3f, north %+.3f\n", argv[2],
               sqrt(east * east + north * north), east, north);
    }
    bhtf_file_close(f);
    return status;
}
