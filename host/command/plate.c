/* A target plate that is half legible: which bytes a name may have at each
 * place, from a pattern. */
#include "plate.h"

#include <string.h>

/* What is taken for one another on a scraped plate. */
static const char *const groups[] = {
    "0ODQo", "1Il7|", "8B3", "5Ss", "2Zz", "6Gb", "9gq", "4A", "UV", "MN",
    "CG", "EF", "PR"
};

const char *plate_alike(uint8_t c)
{
    if (c == 0)
        return NULL;
    for (size_t i = 0; i < sizeof groups / sizeof groups[0]; i++)
        if (strchr(groups[i], c) != NULL)
            return groups[i];
    return NULL;
}

/* ---- one place ---- */

static void allow_alike(uint8_t *allowed)
{
    uint8_t more[256] = { 0 };

    for (unsigned c = 1; c < 256; c++)
        for (size_t i = 0; allowed[c] && i < sizeof groups / sizeof groups[0];
             i++)
            if (strchr(groups[i], (int)c) != NULL)
                for (const char *g = groups[i]; *g != '\0'; g++)
                    more[(uint8_t)*g] = 1;
    for (unsigned c = 1; c < 256; c++)
        allowed[c] |= more[c];
}

static int hex_of(char c)
{
    if (c >= '0' && c <= '9')
        return c - '0';
    if (c >= 'a' && c <= 'f')
        return c - 'a' + 10;
    return c >= 'A' && c <= 'F' ? c - 'A' + 10 : -1;
}

/* Reads one byte as typed, \xHH or itself; moves *at past it. */
static uint8_t take_byte(const char **at)
{
    const char *a = *at;

    if (a[0] == '\\' && a[1] == 'x' && hex_of(a[2]) >= 0 && hex_of(a[3]) >= 0) {
        *at += 4;
        return (uint8_t)(hex_of(a[2]) * 16 + hex_of(a[3]));
    }
    *at += 1;
    return (uint8_t)a[0];
}

/* Reads a class after its [; moves *at past its ]. */
static const char *take_class(uint8_t *allowed, const char **at)
{
    int none_of = **at == '!' || **at == '^';
    const char *first;

    *at += none_of;
    first = *at;
    while (**at != ']' || *at == first) {
        unsigned low, high;

        if (**at == '\0')
            return "a class without its ]";
        low = high = take_byte(at);
        if ((*at)[0] == '-' && (*at)[1] != ']' && (*at)[1] != '\0') {
            *at += 1;
            high = take_byte(at);
        }
        if (low > high)
            return "a range in a class that falls";
        for (unsigned c = low; c <= high; c++)
            allowed[c] = 1;
    }
    *at += 1;
    for (unsigned c = 1; none_of && c < 256; c++)
        allowed[c] = !allowed[c];
    allowed[0] = 0; /* a zero byte is padding */
    return NULL;
}

/* Reads the next place of the pattern; moves *at past it. */
static const char *take_place(uint8_t *allowed, const char **at, int alike)
{
    const char *wrong = NULL;

    if (**at == '?') {
        memset(allowed + 1, 1, 255);
        *at += 1;
        return NULL;
    }
    if (**at == '[') {
        *at += 1;
        wrong = take_class(allowed, at);
    } else
        allowed[take_byte(at)] = 1;
    if (alike && wrong == NULL)
        allow_alike(allowed);
    return wrong;
}

/* ---- all places ---- */

static void find_range(struct plate *p, uint32_t place)
{
    unsigned low = 0, high = 255;

    while (low < 255 && !p->allowed[place][low])
        low++;
    while (high > low && !p->allowed[place][high])
        high--;
    p->lowest[place] = (uint8_t)low;
    p->highest[place] = (uint8_t)high;
}

const char *plate_read(struct plate *p, const char *pattern, uint32_t key_size,
                       int alike)
{
    uint32_t place = 0;
    int open_end = 0;

    memset(p, 0, sizeof *p);
    p->key_size = key_size;
    while (*pattern != '\0') {
        const char *wrong;

        if (pattern[0] == '*' && pattern[1] == '\0') {
            open_end = 1;
            break;
        }
        if (pattern[0] == '*')
            return "a * that is not at its end";
        if (place == key_size)
            return "more places than a name of this file has bytes";
        wrong = take_place(p->allowed[place++], &pattern, alike);
        if (wrong != NULL)
            return wrong;
    }
    for (; place < key_size; place++)
        memset(p->allowed[place], 1, open_end ? 256 : 1);
    for (uint32_t i = 0; i < key_size; i++)
        find_range(p, i);
    return NULL;
}

int plate_fits(const struct plate *p, const uint8_t *key)
{
    for (uint32_t i = 0; i < p->key_size; i++)
        if (!p->allowed[i][key[i]])
            return 0;
    return 1;
}
