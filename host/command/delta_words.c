/* What is wrong with a delta, in words. */
#include "delta_words.h"

#include "bhtf_delta.h"

#include <ctype.h>
#include <stdio.h>
#include <string.h>

const char *delta_words(uint32_t number)
{
    static char words[256];
    size_t length;

    if (number == BHTF_DELTA_VERSION)
        return "the delta is of a version that this command does not know";
    snprintf(words, sizeof words, "%s", bhtf_message(number));
    words[0] = (char)tolower((unsigned char)words[0]);
    length = strlen(words);
    if (length > 0 && words[length - 1] == '.')
        words[length - 1] = '\0';
    return words;
}
