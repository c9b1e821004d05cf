/* sum: a short sum of each file, which office and station compare by voice. */
#include "commands.h"

#include "bhtf_delta.h"
#include "short_sum.h"

static void print_long(const struct buffer *copy, const char *file)
{
    uint8_t sum[BHTF_SUM];

    bhtf_sum(copy->bytes, copy->length, sum);
    for (size_t i = 0; i < BHTF_SUM; i++)
        printf("%02x", sum[i]);
    printf("  %s\n", file);
}

static int print_sum(const struct options *o, const char *file)
{
    struct buffer copy = { NULL, 0, 0 };
    char shown[SHORT_SUM];
    uint32_t number, key_size;
    int status = TROUBLE;

    if (image_copy(&copy, file, (unsigned)o->wait) == 0) {
        number = ask_header(copy.bytes, copy.length, &key_size);
        status = number == BHTF_ACCEPTED ? DONE : refuse(file, number);
    }
    if (status == DONE && o->given & OPTION_LONG) {
        print_long(&copy, file);
    } else if (status == DONE) {
        short_sum(shown, copy.bytes, copy.length);
        printf("%s  %s\n", shown, file);
    }
    buffer_free(&copy);
    return status;
}

int run_sum(const struct options *o)
{
    int worst = DONE;

    for (int i = 0; i < o->words; i++) {
        int status = print_sum(o, o->word[i]);

        worst = status > worst ? status : worst;
    }
    return finish_output(worst);
}
