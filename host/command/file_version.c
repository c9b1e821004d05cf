/* The versions of files: as --format names them, and what each allows. */
#include "file_version.h"

#include "bhtf.h"
#include "image_header.h"

#include <stdlib.h>
#include <string.h>

enum { VERSION_AT = 5 };

/* Those that there are, the one that create makes first. */
static const struct version all[] = {
    { { 1, 0, 2 } }, { { 1, 0, 1 } }, { { 1, 0, 0 } }, { { 2, 0, 0 } }
};

int format_read(const struct options *o, struct version *v)
{
    for (size_t i = 0; i < sizeof all / sizeof all[0]; i++) {
        const uint8_t *n = all[i].number;
        char words[16];

        snprintf(words, sizeof words, "%u.%u.%u", n[0], n[1], n[2]);
        *v = all[i];
        if (strcmp(o->format, words) == 0)
            return DONE;
    }
    complain("--format is 1.0.0, 1.0.1, 1.0.2 or 2.0.0, and not %s", o->format);
    return TROUBLE;
}

struct version version_of(const uint8_t *image)
{
    struct version v;

    memcpy(v.number, image + VERSION_AT, sizeof v.number);
    return v;
}

int version_is_wide(struct version v)
{
    return v.number[0] == 2 && v.number[1] == 0 && v.number[2] == 0;
}

int version_has_notes(struct version v)
{
    return version_is_wide(v) || v.number[2] >= 2;
}

/* The converter carries an empty image of the header and the table alone. */
static int64_t widen(uint8_t *image, size_t length)
{
    size_t data = header_read(image).data;
    uint8_t *narrow = malloc(data);
    uint32_t number;

    if (narrow == NULL)
        return -1;
    memcpy(narrow, image, data);
    number = bhtf_convert(narrow, data, image, length);
    free(narrow);
    return number;
}

int64_t version_give(uint8_t *image, size_t length, struct version v)
{
    uint32_t count;

    if (version_is_wide(v))
        return widen(image, length);
    memcpy(image + VERSION_AT, v.number, sizeof v.number);
    return bhtf_count(image, length, &count);
}

void say_version(const char *file, struct version before, struct version now)
{
    if (memcmp(&now, &before, sizeof now) != 0)
        complain("%s: warning: with an empty text the file is of version "
                 "%u.%u.%u; a station that knows %u.%u.%u and no later one "
                 "refuses it (5)", file, now.number[0], now.number[1],
                 now.number[2], before.number[0], before.number[1],
                 before.number[2]);
}
