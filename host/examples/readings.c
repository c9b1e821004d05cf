/* readings FILE NAME NUMBER..: stores readings under a name, by column, and
 * prints what is stored then. A reading is a signed number of tenths of a
 * millimetre, 4 bytes, most significant first.
 * cc readings.c $(pkg-config --cflags --libs bhtf) */
#include <bhtf_file.h>

#include <stdio.h>
#include <stdlib.h>

enum { WIDTH = 4, MOST = 1000 };

static int complain(const char *words)
{
    fprintf(stderr, "readings: %s\n", words);
    return 1;
}

static void put_number(uint8_t *to, long value)
{
    for (int i = 0; i < WIDTH; i++)
        to[i] = (uint8_t)((unsigned long)value >> (24 - 8 * i));
}

static long take_number(const uint8_t *from)
{
    long value = from[0] < 128 ? from[0] : from[0] - 256L;

    for (int i = 1; i < WIDTH; i++)
        value = value * 256 + from[i];
    return value;
}

/* What is stored under a key already; *length is 0 if nothing is. */
static uint32_t read(bhtf_file *f, const uint8_t *key, size_t size,
                     uint8_t *records, size_t *length)
{
    uint32_t width;
    uint32_t number = bhtf_file_read_columns(f, key, size, records,
                                             MOST * WIDTH, &width, length);

    if (number == BHTF_ABSENT)
        return BHTF_ACCEPTED;
    return number == BHTF_ACCEPTED && width != WIDTH ? BHTF_BAD_RECORDS
                                                     : number;
}

/* Appends readings to those that are there. */
static uint32_t store(bhtf_file *f, const char *name, char **words, int count)
{
    uint8_t key[BHTF_KEY_MAX], records[MOST * WIDTH];
    size_t size, length = 0;
    uint32_t number = bhtf_file_key(f, name, key, &size);

    if (number == BHTF_ACCEPTED)
        number = read(f, key, size, records, &length);
    if (number == BHTF_ACCEPTED && (size_t)count > MOST - length / WIDTH)
        number = BHTF_TOO_LONG;
    if (number != BHTF_ACCEPTED)
        return number;
    for (int i = 0; i < count; i++, length += WIDTH)
        put_number(records + length, atol(words[i]));
    number = bhtf_file_store_columns(f, key, size, records, length, WIDTH);
    for (size_t at = 0; number == BHTF_ACCEPTED && at < length; at += WIDTH)
        printf("%ld\n", take_number(records + at));
    return number;
}

int main(int argc, char **argv)
{
    struct bhtf_file_options options = BHTF_FILE_OPTIONS;
    struct bhtf_file_error why;
    uint32_t number;
    bhtf_file *f;

    if (argc < 3)
        return complain("readings FILE NAME NUMBER..");
    options.flags = BHTF_FILE_WRITE;
    f = bhtf_file_open_with(argv[1], &options, &why);
    if (f == NULL)
        return complain(why.words);
    number = store(f, argv[2], argv + 3, argc - 3);
    if (number != BHTF_ACCEPTED)
        complain(bhtf_file_error(f)->number == number
                 ? bhtf_file_error(f)->words : bhtf_message(number));
    return bhtf_file_close(f) == BHTF_ACCEPTED && number == BHTF_ACCEPTED
        ? 0 : 1;
}
