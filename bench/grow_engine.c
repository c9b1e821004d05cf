/* What another engine's adds cost while it grows: as many points as growth's old
 * table has, then as many adds as growth takes, each timed.
 *
 * grow-ENGINE NAME FILE [SLOTS]      of the largest table; 65,536 if not given
 * Prints Markdown lines as grow does. Ends with "N passed, M failed". */
#define _POSIX_C_SOURCE 200809L
#include "grow.h"
#include "samples.h"
#include "store.h"

#include <stdlib.h>

static int add(uint32_t number)
{
    struct text text = { text_of(number), TEXT };
    uint8_t key[KEY];

    name_of(key, number);
    return store.add(key, text);
}

/* The engine is made for as many points as the old table had slots. */
static void grow_at(const char *who, const char *path, uint32_t slots)
{
    uint32_t points = slots / 2 / 10 * 9, number = 0;
    static struct times times;

    expect("open", store.open(path, KEY, slots / 2,
                              (size_t)slots * (TEXT + 4)) == DONE);
    while (number < points)
        expect("a point", add(number++) == DONE);
    while (number < points + points / 8 + 1) {
        double from = now();
        int answer = add(number++);

        note_time(&times, now() - from);
        expect("an add", answer == DONE);
    }
    expect("all points", store.count() == number);
    print_times(slots, "add", who, &times);
    clear_times(&times);
    store.close();
}

int main(int argc, char **argv)
{
    static const uint32_t sizes[] = { 5507, 65536, 1048576 };
    unsigned long most = argc > 3 ? strtoul(argv[3], NULL, 10) : 65536;

    if (argc < 3)
        return 2;
    for (size_t i = 0; i < sizeof sizes / sizeof *sizes; i++)
        if (sizes[i] <= most)
            grow_at(argv[1], argv[2], sizes[i]);
    return expected();
}
