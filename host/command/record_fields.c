/* A described record: numbers one after the other, each of some bytes. */
#include "record_fields.h"

#include "complain.h"

#include <errno.h>
#include <inttypes.h>
#include <math.h>
#include <stdlib.h>
#include <string.h>

/* ---- the description ---- */

static int field_read(struct field *f, const char *word, size_t length)
{
    static const char *const known[] = { "u8", "u16", "u32", "u64", "i8", "i16",
                                         "i32", "i64", "f32", "f64" };

    for (size_t i = 0; i < sizeof known / sizeof known[0]; i++)
        if (strlen(known[i]) == length && memcmp(known[i], word, length) == 0) {
            f->kind = known[i][0];
            f->size = (unsigned)atoi(known[i] + 1) / 8;
            return 0;
        }
    return -1;
}

int fields_read(struct fields *f, const char *words, int little)
{
    memset(f, 0, sizeof *f);
    f->little = little;
    for (const char *at = words;; at++) {
        size_t length = strcspn(at, ",");
        struct field *next = &f->of[f->count];

        if (f->count == RECORD_MOST || field_read(next, at, length) != 0) {
            complain("--fields needs u8, u16, u32, u64, i8 to i64, f32 or f64 "
                     "with commas between them, and not %s", words);
            return -1;
        }
        next->at = f->width;
        f->width += next->size;
        f->count++;
        at += length;
        if (*at == '\0')
            break;
    }
    if (f->width <= RECORD_MOST)
        return 0;
    complain("--fields: a record has at most %d bytes, and not %u", RECORD_MOST,
             f->width);
    return -1;
}

/* ---- numbers and their bytes ---- */

static void put_bits(const struct fields *f, const struct field *d,
                     uint64_t bits, uint8_t *record)
{
    for (unsigned k = 0; k < d->size; k++) {
        unsigned place = f->little ? k : d->size - 1 - k;

        record[d->at + place] = (uint8_t)(bits >> (8 * k));
    }
}

static uint64_t get_bits(const struct fields *f, const struct field *d,
                         const uint8_t *record)
{
    uint64_t bits = 0;

    for (unsigned k = 0; k < d->size; k++) {
        unsigned place = f->little ? k : d->size - 1 - k;

        bits |= (uint64_t)record[d->at + place] << (8 * k);
    }
    return bits;
}

static int whole_read(char kind, unsigned size, const char *word,
                      uint64_t *bits)
{
    unsigned unused = 64 - 8 * size;
    char *end;

    errno = 0;
    if (kind == 'u') {
        if (*word == '-')
            return -1;
        *bits = strtoull(word, &end, 10);
        return errno != 0 || end == word || *end != '\0' ||
               *bits > UINT64_MAX >> unused ? -1 : 0;
    } else {
        long long number = strtoll(word, &end, 10);
        int64_t most = (int64_t)(UINT64_MAX >> (unused + 1));

        *bits = (uint64_t)number;
        return errno != 0 || end == word || *end != '\0' || number > most ||
               number < -most - 1 ? -1 : 0;
    }
}

static int float_read(unsigned size, const char *word, uint64_t *bits)
{
    char *end;
    double number = strtod(word, &end);

    if (end == word || *end != '\0' || !isfinite(number))
        return -1;
    if (size == 4) {
        float narrow = (float)number;
        uint32_t low;

        if (!isfinite(narrow))
            return -1;
        memcpy(&low, &narrow, sizeof low);
        *bits = low;
    } else
        memcpy(bits, &number, sizeof number);
    return 0;
}

int field_put(const struct fields *f, size_t i, struct piece typed,
              uint8_t *record)
{
    const struct field *d = &f->of[i];
    char word[64];
    uint64_t bits;

    typed = piece_trim(typed);
    if (typed.length == 0 || typed.length >= sizeof word)
        return -1;
    memcpy(word, typed.bytes, typed.length);
    word[typed.length] = '\0';
    if ((d->kind == 'f' ? float_read(d->size, word, &bits)
                        : whole_read(d->kind, d->size, word, &bits)) != 0)
        return -1;
    put_bits(f, d, bits, record);
    return 0;
}

static void print_float(unsigned size, uint64_t bits)
{
    if (size == 4) {
        uint32_t low = (uint32_t)bits;
        float narrow;

        memcpy(&narrow, &low, sizeof narrow);
        printf("%.9g", (double)narrow);
    } else {
        double number;

        memcpy(&number, &bits, sizeof number);
        printf("%.17g", number);
    }
}

void field_print(const struct fields *f, size_t i, const uint8_t *record)
{
    const struct field *d = &f->of[i];
    uint64_t bits = get_bits(f, d, record);

    if (d->kind == 'f')
        print_float(d->size, bits);
    else if (d->kind == 'u' || bits >> (8 * d->size - 1) == 0)
        printf("%" PRIu64, bits);
    else /* the two's complement of a negative number, in its own bytes */
        printf("-%" PRIu64, (UINT64_MAX >> (64 - 8 * d->size)) - bits + 1);
}
