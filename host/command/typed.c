/* Numbers, words and names as they are typed, and names as they are shown. */
#include "typed.h"

#include "utf8.h"

#include <string.h>

/* ---- numbers ---- */

static int digit_value(int c)
{
    if (c >= '0' && c <= '9')
        return c - '0';
    if (c >= 'a' && c <= 'f')
        return c - 'a' + 10;
    if (c >= 'A' && c <= 'F')
        return c - 'A' + 10;
    return 16;
}

/* Reads the digits of a word; *end is after them. -1 if there are none, or too
 * many. */
static int digits_read(const char *word, const char **end, uint64_t *number)
{
    int base = word[0] == '0' && (word[1] == 'x' || word[1] == 'X') ? 16 : 10;
    const char *at = base == 16 ? word + 2 : word;
    const char *first = at;
    uint64_t n = 0;

    for (; digit_value((unsigned char)*at) < base; at++) {
        if (n > (UINT64_MAX - 15) / 16)
            return -1;
        n = n * (uint64_t)base + (uint64_t)digit_value((unsigned char)*at);
    }
    *end = at;
    *number = n;
    return at == first ? -1 : 0;
}

int number_read(const char *word, uint64_t most, uint64_t *number)
{
    const char *end;
    uint64_t n;

    if (digits_read(word, &end, &n) != 0 || *end != '\0' || n > most)
        return -1;
    *number = n;
    return 0;
}

/* What a unit stands for; 0 if it is none. */
static uint64_t unit_value(const char *unit)
{
    static const struct {
        const char *name;
        uint64_t value;
    } all[] = {
        { "", 1 }, { "b", 1 },
        { "k", 1024 }, { "kb", 1024 }, { "kib", 1024 },
        { "m", 1048576 }, { "mb", 1048576 }, { "mib", 1048576 },
        { "g", 1073741824 }, { "gb", 1073741824 }, { "gib", 1073741824 }
    };

    for (size_t i = 0; i < sizeof all / sizeof all[0]; i++)
        if (same_word((const uint8_t *)unit, strlen(unit), all[i].name))
            return all[i].value;
    return 0;
}

int size_read(const char *word, uint64_t most, uint64_t *number)
{
    const char *end;
    uint64_t n, unit;

    if (digits_read(word, &end, &n) != 0)
        return -1;
    unit = unit_value(end);
    if (unit == 0 || n > most / unit)
        return -1;
    *number = n * unit;
    return 0;
}

/* ---- words ---- */

static int lower(int c)
{
    return c >= 'A' && c <= 'Z' ? c - 'A' + 'a' : c;
}

int same_word(const uint8_t *bytes, size_t length, const char *word)
{
    if (length != strlen(word))
        return 0;
    for (size_t i = 0; i < length; i++)
        if (lower(bytes[i]) != (unsigned char)word[i])
            return 0;
    return 1;
}

/* ---- names ---- */

/* Is the byte at `at` the backslash of \xHH? */
static int is_escape(const uint8_t *at, size_t left)
{
    return left >= 4 && at[0] == '\\' && at[1] == 'x' &&
           digit_value(at[2]) < 16 && digit_value(at[3]) < 16;
}

int name_read(struct buffer *name, const uint8_t *typed, size_t length)
{
    size_t i = 0;

    while (i < length) {
        uint8_t byte = typed[i];
        size_t step = 1;

        if (is_escape(typed + i, length - i)) {
            byte = (uint8_t)(digit_value(typed[i + 2]) * 16 +
                             digit_value(typed[i + 3]));
            step = 4;
        }
        if (buffer_put_byte(name, byte) != 0)
            return -1;
        i += step;
    }
    return 0;
}

int put_escape(struct buffer *to, uint8_t byte)
{
    static const char digits[] = "0123456789ABCDEF";
    const char escape[4] = { '\\', 'x', digits[byte / 16], digits[byte % 16] };

    return buffer_put(to, escape, sizeof escape);
}

/* A blank at either end would be lost where blanks are trimmed. */
static int is_outer_blank(const uint8_t *name, size_t length, size_t at)
{
    return name[at] == ' ' && (at == 0 || at == length - 1);
}

int name_show(struct buffer *shown, const uint8_t *name, size_t length)
{
    size_t i = 0;

    while (length > 0 && name[length - 1] == 0)
        length--;
    while (i < length) {
        size_t step = utf8_prints(name + i, length - i);
        int escaped = step == 0 || name[i] == '\\' ||
                      is_outer_blank(name, length, i);

        if ((escaped ? put_escape(shown, name[i])
                     : buffer_put(shown, name + i, step)) != 0)
            return -1;
        i += escaped ? 1 : step;
    }
    return 0;
}
