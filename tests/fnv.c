/* Reads lines of a name and its FNV-1, both in hexadecimal, and asks the code
 * under test on an image with F = 0, E = 255 and scramble number i equal to i,
 * whose hash is FNV-1. Ends with "N passed, M failed", a pass for each line.
 *
 * The hash is not an export; it is seen through home slots: on an empty table
 * an added name lands in slot hash mod N. 65536, 65535 and 65533 have no
 * common factor and their product exceeds 2^32, so a hash that agrees with
 * the line's modulo all three is equal to it. */
#include "calls.h"

#include <stdio.h>
#include <stdlib.h>
#include <string.h>

#define IMAGE_ROOM (4u * 1024 * 1024)
#define NAME_ROOM 32u

enum { AT_FIRST = 32, AT_LAST = 36, SCRAMBLE = 512, TABLE = 2048 };

static const uint32_t three[3] = { 65536, 65535, 65533 };

/* One image for each of the three, made for names of one size. */
static uint8_t *images[3];
static size_t made_for;

static void put32(uint8_t *at, uint32_t value)
{
    for (uint32_t i = 0; i < 4; i++)
        at[i] = (uint8_t)(value >> (24 - 8 * i));
}

static int create_fnv(uint8_t *image, uint32_t size, uint32_t n)
{
    if (subject.create(image, IMAGE_ROOM, size, n, 0) != 0)
        return 0;
    put32(image + AT_FIRST, 0);
    put32(image + AT_LAST, 255);
    for (uint32_t i = 0; i < 256; i++)
        put32(image + SCRAMBLE + 4 * i, i);
    return 1;
}

static int make_images(size_t size)
{
    for (int i = 0; i < 3; i++)
        if (!create_fnv(images[i], (uint32_t)size, three[i]))
            return 0;
    made_for = size;
    return 1;
}

/* The name lands in the slot of its hash, and goes away again. */
static int lands(uint8_t *image, uint32_t n, const uint8_t *name, size_t size,
                 uint32_t hash)
{
    static const uint8_t zeros[NAME_ROOM];
    const uint8_t *slot = image + TABLE + hash % n * (size + 4);

    return subject.add(image, IMAGE_ROOM, name, size, NULL, 0, 3) == 0 &&
           memcmp(slot, name, size) == 0 &&
           subject.remove(image, IMAGE_ROOM, name, size) == 0 &&
           memcmp(slot, zeros, size) == 0;
}

static int holds(const uint8_t *name, size_t size, uint32_t hash)
{
    if (size != made_for && !make_images(size))
        return 0;
    for (int i = 0; i < 3; i++)
        if (!lands(images[i], three[i], name, size, hash)) {
            made_for = 0;
            return 0;
        }
    return 1;
}

/* Bytes of a name in hexadecimal; 0 if it is none. */
static size_t read_name(const char *text, uint8_t *name)
{
    size_t size = strlen(text) / 2;
    unsigned byte;

    if (strlen(text) % 2 != 0 || size > NAME_ROOM)
        return 0;
    for (size_t i = 0; i < size; i++) {
        if (sscanf(text + 2 * i, "%2x", &byte) != 1)
            return 0;
        name[i] = (uint8_t)byte;
    }
    return size;
}

int main(void)
{
    char text[2 * NAME_ROOM + 1];
    uint8_t name[NAME_ROOM];
    unsigned hash, passed = 0, failed = 0;
    int fields;

    for (int i = 0; i < 3; i++)
        if ((images[i] = malloc(IMAGE_ROOM)) == NULL)
            return 2;
    while ((fields = scanf("%64s %8x", text, &hash)) == 2) {
        size_t size = read_name(text, name);

        if (size > 0 && holds(name, size, hash)) {
            passed++;
        } else {
            failed++;
            printf("FAILED: %s: the hash is not 0x%08x\n", text, hash);
        }
    }
    for (int i = 0; i < 3; i++)
        free(images[i]);
    if (fields != EOF) {
        printf("FAILED: a line is not a name and a hash\n");
        failed++;
    }
    printf("%u passed, %u failed\n", passed, failed);
    return failed != 0;
}
