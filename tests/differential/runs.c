/* Where two images differ, run by run: the image before a call and after it. */
#include "parts.h"

/* Numbers of its own, so that the calls of a list are the same with it and
 * without it. */
static uint32_t number_below(uint32_t n)
{
    static uint64_t state = 1;

    state = state * UINT64_C(6364136223846793005) + 1442695040888963407u;
    return (uint32_t)(state >> 33) % n;
}

/* The next run by the library, held against plain C's. */
static size_t same_run(size_t before_len, size_t after_len, size_t from,
                       size_t *size)
{
    size_t wanted;
    size_t at = subject.next_change(lent.before, before_len, lent.library,
                                    after_len, from, size);

    if (at != plain.next_change(lent.before, before_len, lent.library,
                                after_len, from, &wanted))
        fail("the next run begins at another place than plain C's");
    if (*size != wanted)
        fail("the next run has not the bytes of plain C's");
    return at;
}

static size_t cut_near(size_t at, size_t size, size_t length)
{
    size_t cut = at + number_below((uint32_t)size + 3);

    return number_below(2) == 0 || cut > length ? length : cut;
}

/* From a place before, in or behind a run, of images that may end there. */
static void compare_near(size_t at, size_t size, size_t length)
{
    size_t back = number_below(70);
    size_t from = (at < back ? 0 : at - back) + number_below((uint32_t)size + 80);
    size_t told;

    same_run(cut_near(at, size, length), cut_near(at, size, length), from,
             &told);
}

/* Every byte that differs is in one of the runs, and no other. */
static void compare_all(size_t length)
{
    struct changed seen_runs = { 0, 0 };
    struct changed wanted = count_changed(lent.before, lent.library, length);
    size_t at = 0, size;

    while (at = same_run(length, length, at, &size), size > 0) {
        seen_runs.runs++;
        seen_runs.bytes += size;
        if (number_below((uint32_t)seen_runs.runs) < 4)
            compare_near(at, size, length);
        at += size;
    }
    if (at != length)
        fail("where no run is left, another place than the end is told");
    if (seen_runs.runs != wanted.runs || seen_runs.bytes != wanted.bytes)
        fail("the runs, one by one, are not all that differs");
}

void compare_runs(size_t length)
{
    if (number_below(4) == 0)
        compare_all(length);
}
