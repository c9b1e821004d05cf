/* Tables in which points stand far from their homes. */
#include "long_work.h"

#include "bhtf.h"
#include "complain.h"

/* Slots that are gone through in a second, with short keys and with the longest
 * ones: measured on a slow machine. */
enum { SLOTS_A_SECOND = 200000000, SLOWER_WITH_KEYS = 8 };

uint64_t slots_displaced(const uint8_t *image, size_t length,
                         const struct header *h)
{
    uint64_t sum = 0;
    uint32_t slot, place;

    bhtf_walk(image, length, 0, &slot, &place);
    while (place != 0) {
        uint32_t home = home_slot(image, h, image + place);

        sum += slot >= home ? slot - home : slot + h->slots - home;
        bhtf_walk(image, length, slot + 1, &slot, &place);
    }
    return sum;
}

void say_duration(const char *file, const char *what, uint64_t slots,
                  uint32_t key_size)
{
    uint64_t seconds = slots / SLOTS_A_SECOND *
                       (1 + key_size / SLOWER_WITH_KEYS);

    if (slots <= SLOTS_BEARABLE)
        return;
    complain("%s: warning: its points stand far from their homes, as in no file "
             "that these commands made; %s may take some %lu %s. Ctrl-C ends "
             "it, with the file as it was", file, what,
             (unsigned long)(seconds < 120 ? seconds + 1 : seconds / 60 + 1),
             seconds < 120 ? "seconds" : "minutes");
}
