/* scramble: the numbers of a seed, as the library puts them into a file. */
#include "commands.h"

#include "bhtf.h"
#include "image_header.h"

int run_scramble(const struct options *o)
{
    static uint8_t image[BHTF_PAGE];
    struct header h;
    uint64_t seed;
    uint32_t number;

    if (number_read(o->word[0], UINT32_MAX, &seed) != 0) {
        complain("scramble needs a number from 0 to %lu",
                 (unsigned long)UINT32_MAX);
        return TROUBLE;
    }
    number = bhtf_create(image, sizeof image, 1, 1, (uint32_t)seed);
    if (number != 0)
        return refuse("scramble", number);
    h = header_read(image);
    for (uint32_t i = 0; i <= h.last - h.first; i++)
        printf("%lu\n", (unsigned long)scramble_number(image, i));
    return finish_output(DONE);
}
