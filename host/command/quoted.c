/* Bytes as quoted text on one line. */
#include "quoted.h"

#include "typed.h"
#include "utf8.h"

#include <string.h>

/* Bytes that are printed at once. */
enum { PART = 1 << 16 };

/* Letters after a backslash, and what each stands for. */
static const char letters[] = "\"\\nrt";
static const char meanings[] = "\"\\\n\r\t";

static int put_one(struct buffer *to, const uint8_t *at, size_t step)
{
    const char *meaning = *at == 0 ? NULL : strchr(meanings, *at);

    if (meaning != NULL) {
        const char escape[2] = { '\\', letters[meaning - meanings] };

        return buffer_put(to, escape, sizeof escape);
    }
    return step == 0 ? put_escape(to, *at) : buffer_put(to, at, step);
}

int quoted_put(struct buffer *to, const uint8_t *bytes, size_t length)
{
    int done = buffer_put_byte(to, '"');
    size_t i = 0;

    while (i < length && done == 0) {
        size_t step = utf8_prints(bytes + i, length - i);

        done = put_one(to, bytes + i, step);
        i += step == 0 ? 1 : step;
    }
    return done | buffer_put_byte(to, '"');
}

int quoted_print(FILE *to, const uint8_t *bytes, size_t length)
{
    struct buffer part = { NULL, 0, 0 };
    int done = 0;

    putc('"', to);
    for (size_t i = 0; i < length && done == 0;) {
        size_t step = utf8_prints(bytes + i, length - i);

        done = put_one(&part, bytes + i, step);
        i += step == 0 ? 1 : step;
        if (part.length >= PART || i >= length) {
            fwrite(part.bytes, 1, part.length, to);
            part.length = 0;
        }
    }
    putc('"', to);
    buffer_free(&part);
    return done;
}

int quoted_put_name(struct buffer *to, const uint8_t *key, size_t length)
{
    while (length > 0 && key[length - 1] == 0)
        length--;
    return quoted_put(to, key, length);
}

static int digit(uint8_t c)
{
    static const char digits[] = "0123456789ABCDEFabcdef";
    const char *at = c == 0 ? NULL : strchr(digits, c);

    if (at == NULL)
        return -1;
    return at - digits < 16 ? (int)(at - digits) : (int)(at - digits) - 6;
}

/* Reads what stands after a backslash: its length, or 0. */
static size_t take_escape(const uint8_t *at, size_t left, uint8_t *byte)
{
    const char *letter = left == 0 || *at == 0 ? NULL : strchr(letters, *at);

    if (letter != NULL) {
        *byte = (uint8_t)meanings[letter - letters];
        return 1;
    }
    if (left < 3 || *at != 'x' || digit(at[1]) < 0 || digit(at[2]) < 0)
        return 0;
    *byte = (uint8_t)(digit(at[1]) * 16 + digit(at[2]));
    return 3;
}

const uint8_t *quoted_take(struct buffer *to, const uint8_t *at,
                           const uint8_t *end, const char **wrong)
{
    *wrong = "a quote is missing";
    if (at == end || *at++ != '"')
        return NULL;
    while (at != end && *at != '"') {
        uint8_t byte = *at++;

        if (byte == '\\') {
            size_t step = take_escape(at, (size_t)(end - at), &byte);

            *wrong = "what is behind a backslash is not known";
            if (step == 0)
                return NULL;
            at += step;
        } else if (byte < 32) {
            *wrong = "a byte that does not print is written \\xHH";
            return NULL;
        }
        *wrong = "not enough memory";
        if (buffer_put_byte(to, byte) != 0)
            return NULL;
        *wrong = "a quote is missing";
    }
    return at == end ? NULL : at + 1;
}
