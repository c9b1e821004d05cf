/* All of an input's bytes, told what they are, and made UTF-8. */
#include "intake.h"

#include "complain.h"
#include "typed.h"
#include "utf8.h"

#include <errno.h>
#include <iconv.h>
#include <string.h>

/* ---- what it is ---- */

static int begins(const struct buffer *b, size_t at, const char *with,
                  size_t length)
{
    return b->length >= at + length &&
           memcmp(b->bytes + at, with, length) == 0;
}

/* Where the first character stands that is no mark, blank or line's end. */
static size_t first_byte(const struct buffer *b)
{
    size_t at = begins(b, 0, "\xEF\xBB\xBF", 3) ? 3 : 0;

    while (at < b->length && strchr(" \t\r\n", b->bytes[at]) != NULL &&
           b->bytes[at] != 0)
        at++;
    return at;
}

static int is_digit(uint8_t byte)
{
    return byte >= '0' && byte <= '9';
}

/* Reads two digits of a word index after an asterisk. */
static int is_gsi(const struct buffer *b, size_t at)
{
    return b->length >= at + 3 && b->bytes[at] == '*' &&
           is_digit(b->bytes[at + 1]) && is_digit(b->bytes[at + 2]);
}

/* A first word of 16 characters without an asterisk: 11, 4 characters, a sign
 * and 8 others. */
static int is_gsi_8(const struct buffer *b, size_t at)
{
    return b->length >= at + 16 && begins(b, at, "11", 2) &&
           (b->bytes[at + 6] == '+' || b->bytes[at + 6] == '-') &&
           b->bytes[at + 15] == ' ';
}

/* By its mark, or by the zero bytes of its first characters, which no name
 * begins with. */
static int is_wide(const struct buffer *b)
{
    return begins(b, 0, "\xFF\xFE", 2) || begins(b, 0, "\xFE\xFF", 2) ||
           (b->length >= 2 && memchr(b->bytes, 0,
                                     b->length < 4 ? b->length : 4) != NULL);
}

const char *intake_words(const struct buffer *b)
{
    size_t at = first_byte(b);

    if (begins(b, 0, "BHTFd", 5))
        return "this is a record of changes; bhtf apply takes it";
    if (begins(b, 0, "BHTF", 4))
        return "this is a control point file; bhtf export prints its points";
    if (begins(b, at, "bhtf-dump ", 10))
        return "this is a dump; bhtf load makes a file of it";
    if (begins(b, 0, "PK\003\004", 4) ||
        begins(b, 0, "\xD0\xCF\x11\xE0", 4))
        return "this is a spreadsheet's own file; save it as CSV UTF-8";
    if (begins(b, 0, "%PDF", 4))
        return "this is a PDF";
    if (is_gsi_8(b, at))
        return "this is GSI-8, which is not read; a line of GSI-16 begins "
               "with *";
    return NULL;
}

enum intake_kind intake_kind(const struct buffer *b)
{
    size_t at = first_byte(b);

    if (intake_words(b) != NULL)
        return INTAKE_OTHER;
    if (is_wide(b))
        return INTAKE_WIDE;
    if (is_gsi(b, at))
        return INTAKE_GSI;
    return at < b->length && b->bytes[at] == '<' ? INTAKE_XML : INTAKE_CSV;
}

/* ---- letters ---- */

static unsigned long line_at(const uint8_t *bytes, size_t at)
{
    unsigned long line = 1;

    for (size_t i = 0; i < at; i++)
        line += bytes[i] == '\n';
    return line;
}

/* Could all of its bytes be Windows-1252? Five of them are nothing there, and
 * a text has no controls. */
static int is_1252(const struct buffer *b)
{
    for (size_t i = 0; i < b->length; i++) {
        uint8_t byte = b->bytes[i];

        if (memchr("\x81\x8D\x8F\x90\x9D", byte, 5) != NULL ||
            (byte < 32 && memchr("\t\n\r\f", byte, 4) == NULL))
            return 0;
    }
    return 1;
}

static int complain_of_bytes(const struct buffer *b, size_t at,
                             const char *input)
{
    if (is_1252(b))
        complain("%s: line %lu: the byte %02X is not UTF-8; this looks like "
                 "Windows-1252, as spreadsheets save CSV: --encoding "
                 "windows-1252 takes it", input, line_at(b->bytes, at),
                 b->bytes[at]);
    else
        complain("%s: line %lu: the byte %02X is not UTF-8; --encoding says "
                 "what it is, or bytes to keep it as it is", input,
                 line_at(b->bytes, at), b->bytes[at]);
    return -1;
}

static int ask_utf8(const struct buffer *b, const char *input)
{
    size_t at = 0;

    while (at < b->length) {
        uint32_t character;
        size_t step = utf8_read(b->bytes + at, b->length - at, &character);

        if (step == 0)
            return complain_of_bytes(b, at, input);
        at += step;
    }
    return 0;
}

static int is_word(const char *encoding, const char *word)
{
    return same_word((const uint8_t *)encoding, strlen(encoding), word);
}

int encoding_known(const char *encoding)
{
    iconv_t with;

    if (encoding == NULL || is_word(encoding, "bytes"))
        return 0;
    with = iconv_open("UTF-8", encoding);
    if (with == (iconv_t)-1) {
        complain("--encoding %s is not known; it takes utf-8, windows-1252, "
                 "what iconv -l lists, or bytes", encoding);
        return -1;
    }
    iconv_close(with);
    return 0;
}

/* Bytes above ASCII that are UTF-8 throughout are hardly anything else. */
static void warn_of_utf8(const struct buffer *b, const char *encoding,
                         const char *input)
{
    size_t i = 0;

    while (i < b->length && b->bytes[i] < 0x80)
        i++;
    if (i < b->length && utf8_whole(b->bytes, b->length))
        complain("%s: warning: line %lu: its letters are UTF-8, and are now "
                 "taken for %s", input, line_at(b->bytes, i), encoding);
}

/* One step of iconv: 0, or -1 with errno. */
static int convert_some(iconv_t with, char **from, size_t *left,
                        struct buffer *to)
{
    char part[4096];
    char *at = part;
    size_t room = sizeof part;
    size_t did = iconv(with, from, left, &at, &room);
    int error = did == (size_t)-1 ? errno : 0;

    if (buffer_put(to, part, sizeof part - room) != 0)
        error = ENOMEM;
    errno = error;
    return error == 0 || error == E2BIG ? 0 : -1;
}

static int convert(struct buffer *bytes, const char *encoding,
                   const char *input)
{
    iconv_t with = iconv_open("UTF-8", encoding);
    struct buffer to = { NULL, 0, 0 };
    char *from = (char *)bytes->bytes;
    size_t left = bytes->length;
    int done = with == (iconv_t)-1 ? -1 : 0;

    while (done == 0 && left > 0)
        done = convert_some(with, &from, &left, &to);
    if (done != 0 && errno == ENOMEM)
        out_of_memory();
    else if (done != 0)
        complain("%s: line %lu: what stands there is not %s", input,
                 line_at(bytes->bytes, bytes->length - left), encoding);
    if (with != (iconv_t)-1)
        iconv_close(with);
    buffer_free(done == 0 ? bytes : &to);
    if (done == 0)
        *bytes = to;
    return done;
}

int intake_decode(struct buffer *bytes, const char *encoding,
                  const char *input)
{
    if (encoding == NULL || is_word(encoding, "utf-8") ||
        is_word(encoding, "utf8"))
        return ask_utf8(bytes, input);
    if (is_word(encoding, "bytes") || bytes->length == 0)
        return 0;
    warn_of_utf8(bytes, encoding, input);
    return convert(bytes, encoding, input);
}
