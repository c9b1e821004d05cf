/* Calls to be counted, one kind a run, on an image that is the same on every
 * machine:
 *     count prepare FILE    writes it: 16 bytes a name, 5,507 slots, half full;
 *                           and behind it the names
 *     count KIND FILE N     N calls of a kind, which none of them may refuse;
 *                           kind none does all but the call
 */
#include <bhtf.h>

#include <stdio.h>
#include <stdlib.h>
#include <string.h>

enum { KEY = 16, SLOTS = 5507, POINTS = 2750, TEXT = 48, LENGTH = 1 << 20 };

static uint8_t image[LENGTH];
static uint8_t names[2 * POINTS][KEY];
static const uint8_t text[TEXT] = "4482113.402,5351874.118,489.271,brass bolt";

static void die(const char *words)
{
    fprintf(stderr, "count: %s\n", words);
    exit(2);
}

/* The first half of the names are in the image, the others are not. */
static void make_names(void)
{
    char name[KEY + 1];

    for (int i = 0; i < 2 * POINTS; i++) {
        snprintf(name, sizeof name, "PRISM-%010d", i * 7919 % 1000003);
        memcpy(names[i], name, KEY);
    }
}

static void expect(uint32_t number)
{
    if (number != BHTF_ACCEPTED)
        die("a call was refused");
}

static void prepare(const char *path)
{
    FILE *file = fopen(path, "wb");

    expect(bhtf_create(image, LENGTH, KEY, SLOTS, 1));
    for (int i = 0; i < POINTS; i++)
        expect(bhtf_add(image, LENGTH, names[i], KEY, text, TEXT, BHTF_NEW));
    if (file == NULL || fwrite(image, 1, LENGTH, file) != LENGTH ||
        fwrite(names, 1, sizeof names, file) != sizeof names ||
        fclose(file) != 0)
        die("cannot write");
}

static void load(const char *path)
{
    FILE *file = fopen(path, "rb");

    if (file == NULL || fread(image, 1, LENGTH, file) != LENGTH ||
        fread(names, 1, sizeof names, file) != sizeof names)
        die("cannot read");
    fclose(file);
}

/* The i-th call of a kind; its first letter says which. */
static void call(char kind, int i)
{
    const uint8_t *in = names[i % POINTS], *out = names[POINTS + i % POINTS];
    uint32_t a, b;

    switch (kind) {
    case 'h': expect(bhtf_lookup(image, LENGTH, in, KEY, &a, &b)); break;
    case 'm':
        if (bhtf_lookup(image, LENGTH, out, KEY, &a, &b) != BHTF_ABSENT)
            die("found what is not there");
        break;
    case 'r':
        expect(bhtf_add(image, LENGTH, in, KEY, text, TEXT, BHTF_REPLACE));
        break;
    case 's':
        expect(bhtf_delete(image, LENGTH, in, KEY));
        expect(bhtf_add(image, LENGTH, out, KEY, text, TEXT, BHTF_NEW));
        break;
    case 'c': expect(bhtf_check(image, LENGTH, &a, &b)); break;
    case 'n': break;
    default: die("kinds are hit, miss, replace, swap, check and none");
    }
}

int main(int argc, char **argv)
{
    int n;

    if (argc == 3 && strcmp(argv[1], "prepare") == 0) {
        make_names();
        prepare(argv[2]);
        return 0;
    }
    if (argc != 4)
        die("prepare FILE, or KIND FILE N");
    load(argv[2]);
    n = atoi(argv[3]);
    for (int i = 0; i < n; i++)
        call(argv[1][0], i);
    return 0;
}
