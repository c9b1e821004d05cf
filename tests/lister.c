/* Images for the lister, and the text that it must print of each.
 *     lister image CASE    the image, to standard output
 *     lister text CASE     the text, by a plain reading of the image's bytes
 * Cases are made with reference/plain.c; some are then damaged by hand. */
#include <stdint.h>
#include <stdio.h>
#include <stdlib.h>
#include <string.h>

#include "reference/plain.h"

#define MOST 65536

static uint8_t image[MOST + 4096];
static size_t length;

static void must(int ok, const char *what)
{
    if (!ok) {
        fprintf(stderr, "%s\n", what);
        exit(2);
    }
}

static uint32_t get32(size_t at)
{
    return (uint32_t)image[at] << 24 | (uint32_t)image[at + 1] << 16 |
           (uint32_t)image[at + 2] << 8 | image[at + 3];
}

static void put32(size_t at, uint32_t v)
{
    image[at] = (uint8_t)(v >> 24);
    image[at + 1] = (uint8_t)(v >> 16);
    image[at + 2] = (uint8_t)(v >> 8);
    image[at + 3] = (uint8_t)v;
}

static void create(size_t l, uint32_t k, uint32_t n, uint32_t seed)
{
    length = l;
    must(plain_create(image, length, k, n, seed) == 0, "create");
}

static void add(const void *key, size_t k, const char *text)
{
    must(plain_add(image, length, key, k, (const uint8_t *)text, strlen(text),
                   1) == 0, "add");
}

/* A name without a message. */
static void enter(const void *key, size_t k)
{
    must(plain_add(image, length, key, k, NULL, 0, 3) == 0, "enter");
}

/* The document's own example. */
static void example(void)
{
    create(8192, 1, 4, 0);
    add("\1", 1, "P");
    add("\2", 1, "QR");
    add("\3", 1, "");
}

static uint32_t slot_of(uint32_t i)
{
    return 2048 + i * (get32(12) + 4);
}

static void make(const char *name)
{
    uint8_t key[32];
    if (strcmp(name, "example") == 0) {
        example();
    } else if (strcmp(name, "fresh") == 0) {
        create(8192, 4, 100, 7);
    } else if (strcmp(name, "full") == 0) {
        create(8192, 1, 4, 0);
        add("\1", 1, "a");
        add("\2", 1, "bb");
        add("\3", 1, "");
        add(" ", 1, "dddd");
    } else if (strcmp(name, "notes") == 0) {
        /* an empty note, the same in a text's place, and none */
        create(8192, 1, 4, 0);
        add("\1", 1, "");
        add("\2", 1, "bb");
        must(plain_add(image, length, (const uint8_t *)"\2", 1, NULL, 0, 2) ==
             0, "note");
        enter("\3", 1);
    } else if (strcmp(name, "inactive") == 0) {
        example();
        must(plain_add(image, length, (const uint8_t *)"\2", 1, NULL, 0, 4) ==
             0, "withdraw");
    } else if (strcmp(name, "version-1.0.0") == 0) {
        example();
        image[7] = 0;
    } else if (strcmp(name, "version-1.0.3") == 0) {
        example();
        image[7] = 3;
    } else if (strcmp(name, "bad-low") == 0) {
        example();
        put32(slot_of(1) + 1, 60);
    } else if (strcmp(name, "bad-letter") == 0) {
        example();
        image[get32(slot_of(3) + 1)] = 'b';
    } else if (strcmp(name, "bad-end") == 0) {
        example();
        put32(slot_of(0) + 1, 8191);
    } else if (strcmp(name, "made-empty") == 0) {
        example();
        image[get32(slot_of(3) + 1) + 3] = 0;
    } else if (strcmp(name, "bad-header") == 0) {
        /* a header that ends behind X, and an empty message that ends there */
        example();
        put32(slot_of(3) + 1, get32(52) - 3);
        put32(slot_of(1) + 1, get32(52) - 4);
        memcpy(image + get32(52) - 4, "a\0\0\0", 4);
    } else if (strcmp(name, "twice") == 0) {
        /* slot 1 holds slot 0's key, with a message of its own */
        example();
        image[slot_of(1)] = 2;
        put32(slot_of(1) + 1, get32(slot_of(3) + 1));
    } else if (strcmp(name, "zero-bytes") == 0) {
        create(8192, 3, 9, 5);
        add("\0\0\1", 3, "one");
        add("\1\0\0", 3, "");
        add("\0\x7f\0", 3, "three");
        add("\xff\0\xff", 3, "f");
    } else if (strcmp(name, "long-keys") == 0) {
        create(12288, 32, 20, 3);
        for (int i = 0; i < 20; i++) {
            for (int j = 0; j < 32; j++)
                key[j] = (uint8_t)(i * 37 + j * 11 + 1);
            add(key, 32, i % 3 == 0 ? "" : "0123456789ab");
        }
    } else if (strcmp(name, "full-of-points") == 0) {
        /* 65,536 bytes: as many slots of 2 key bytes as a table holds */
        create(MOST, 2, 10581, 1);
        for (int i = 0; i < 10581; i++) {
            key[0] = (uint8_t)((i + 1) >> 8);
            key[1] = (uint8_t)(i + 1);
            enter(key, 2);
        }
    } else if (strcmp(name, "one-byte-keys") == 0) {
        /* 12,697 slots of 1 key byte, every slot taken: more points than keys, so made by hand */
        create(MOST, 1, 12697, 1);
        for (uint32_t i = 0; i < 12697; i++)
            image[slot_of(i)] = (uint8_t)(i % 255 + 1);
        put32(20, 12697);
    } else if (strcmp(name, "long-message") == 0) {
        create(MOST, 1, 4, 0);
        static char text[61437];
        memset(text, 'x', 61436);
        add("\1", 1, text);
    } else if (strcmp(name, "refused-1") == 0) {
        create(8192, 1, 4, 0);
        length = 8191;
    } else if (strcmp(name, "empty") == 0) {
        length = 0;
    } else if (strcmp(name, "refused-5") == 0) {
        create(8192, 1, 4, 0);
        image[6] = 1;
    } else if (strcmp(name, "refused-6") == 0) {
        create(8192, 1, 4, 0);
        put32(20, 5);
    } else if (strcmp(name, "longest") == 0) {
        create(MOST, 32, 1, 0);
        add("abcdefghijklmnopqrstuvwxyz012345", 32, "m");
    } else if (strcmp(name, "too-long") == 0) {
        create(MOST, 1, 4, 0);
        length = MOST + 1;
    } else if (strcmp(name, "far-too-long") == 0) {
        create(MOST, 1, 4, 0);
        length = MOST + 4096;
    } else {
        must(0, "no such case");
    }
}

/* The length of the message at the slot's offset, -1 where question 11 fails. */
static long message(uint32_t o)
{
    if (o == 0)
        return 0;
    uint32_t x = get32(52);
    if (o < get32(48) || (uint64_t)o + 4 > x)
        return -1;
    uint32_t m = get32(o) & 0xffffff;
    if ((image[o] != 'a' && image[o] != 'd') || (uint64_t)o + 4 + m > x)
        return -1;
    return image[o] == 'a' ? (long)m : 0;
}

static void text(void)
{
    if (length > MOST) {
        printf("too long\n");
        return;
    }
    uint32_t c;
    uint32_t number = plain_count(image, length, &c);
    if (number != 0) {
        printf("refused %u\n", (unsigned)number);
        return;
    }
    printf("slot key length\n");
    uint32_t k = get32(12);
    for (uint32_t i = 0; i < get32(16); i++) {
        uint32_t at = slot_of(i);
        int taken = 0;
        for (uint32_t j = 0; j < k; j++)
            taken |= image[at + j] != 0;
        if (!taken)
            continue;
        printf("%u ", (unsigned)i);
        for (uint32_t j = 0; j < k; j++)
            printf("%02x", image[at + j]);
        long m = message(get32(at + k));
        if (m < 0)
            printf(" bad\n");
        else
            printf(" %ld\n", m);
    }
}

int main(int argc, char **argv)
{
    must(argc == 3, "lister image|text CASE");
    make(argv[2]);
    if (strcmp(argv[1], "image") == 0)
        fwrite(image, 1, length, stdout);
    else
        text();
    return 0;
}
