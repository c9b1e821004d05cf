/* An image in a mapped file: the library, or plain C, through tests/calls.h. Of
 * version 2.0.0 if BENCH_VERSION is 2. */
#define _POSIX_C_SOURCE 200809L
#include <fcntl.h>
#include <stdlib.h>
#include <sys/mman.h>
#include <unistd.h>

#include "../tests/calls.h"
#include "store.h"

enum { PAGE = 4096, IMAGE_MAX = 1073741824, TABLE = 2048, SEED = 0 };
enum { NEW = 1, REPLACE = 2, APPEND = 3 };

static uint8_t *image;
static size_t image_len;
static uint32_t key_size, slots;

static size_t up_to_page(size_t length)
{
    return (length + PAGE - 1) / PAGE * PAGE;
}

static int image_open(const char *path, uint32_t k, uint32_t n, size_t room)
{
    int file = open(path, O_RDWR | O_CREAT | O_TRUNC, 0600);

    key_size = k;
    slots = n;
    image_len = up_to_page(TABLE + (size_t)n * (k + 4)) + up_to_page(room);
    if (file < 0 || image_len > IMAGE_MAX)
        return FAILED;
    if (posix_fallocate(file, 0, (off_t)image_len) != 0)
        return FAILED;
    image = mmap(NULL, image_len, PROT_READ | PROT_WRITE, MAP_SHARED, file, 0);
    close(file);
    return image == MAP_FAILED ? FAILED : DONE;
}

static int wants_version_2(void)
{
    const char *version = getenv("BENCH_VERSION");

    return version != NULL && strcmp(version, "2") == 0;
}

static int image_reset(void)
{
    uint32_t answer = subject.create(image, image_len, key_size, slots, SEED);
    uint8_t *fresh;

    if (answer != DONE || !wants_version_2())
        return (int)answer;
    fresh = malloc(image_len);
    if (fresh == NULL)
        return FAILED;
    memcpy(fresh, image, image_len);
    answer = subject.convert(fresh, image_len, image, image_len);
    free(fresh);
    return (int)answer;
}

static int add_in(const uint8_t *key, struct text text, uint32_t mode)
{
    return (int)subject.add(image, image_len, key, key_size, text.bytes,
                            text.length, mode);
}

static int image_add(const uint8_t *key, struct text text)
{
    return add_in(key, text, NEW);
}

static int image_replace(const uint8_t *key, struct text text)
{
    return add_in(key, text, REPLACE);
}

static int image_append(const uint8_t *key, struct text text)
{
    return add_in(key, text, APPEND);
}

static int image_remove(const uint8_t *key)
{
    return (int)subject.remove(image, image_len, key, key_size);
}

static int image_lookup(const uint8_t *key, struct text *text)
{
    uint32_t offset, length;
    uint32_t answer = subject.lookup(image, image_len, key, key_size, &offset,
                                     &length);

    text->bytes = image + offset;
    text->length = length;
    return (int)answer;
}

static int image_walk(struct seen *seen)
{
    uint32_t from = 0;

    for (;;) {
        uint32_t slot, at;
        uint32_t answer = subject.walk(image, image_len, from, &slot, &at);

        if (answer != DONE)
            return (int)answer;
        if (at == 0)
            return DONE;
        see(seen, image + at);
        from = slot + 1;
    }
}

static int image_check(void)
{
    uint32_t verdict, slot;
    uint32_t answer = subject.check(image, image_len, &verdict, &slot);

    return answer == DONE && verdict == 0 ? DONE : FAILED;
}

static uint32_t image_count(void)
{
    uint32_t count;

    subject.count(image, image_len, &count);
    return count;
}

static const uint8_t *image_bytes(size_t *length)
{
    *length = image_len;
    return image;
}

static void image_close(void)
{
    munmap(image, image_len);
}

const struct store store = {
    .open = image_open,
    .reset = image_reset,
    .add = image_add,
    .replace = image_replace,
    .append = image_append,
    .remove = image_remove,
    .lookup = image_lookup,
    .walk = image_walk,
    .check = image_check,
    .count = image_count,
    .image = image_bytes,
    .close = image_close,
};
