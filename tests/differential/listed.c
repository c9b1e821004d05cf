/* The form that lists what changed: what it is lent, and the list by its
 * definition. */
#include "parts.h"

/* Around what the pairs need, around what 16 asks for, or more than enough. */
static size_t choose_list_length(void)
{
    uint32_t style = below(16);
    size_t needed;

    if (style == 0)
        return below(PAIR);
    if (style < 6)
        return PAIR + below(style < 3 ? 2 * PAIR : 256);
    needed = PAIR * foresee().runs;
    if (needed < 2 * PAIR)
        return PAIR + below(3);
    if (style < 10)
        return needed;
    return style < 13 ? needed - 1 - below(PAIR) : needed + below(3);
}

void lend_listed(void)
{
    lend_work();
    list.now.list_len = widen(choose_list_length());
    lend_slice(&listing, list.now.list_len);
    fill_slice(&listing);
}

/* Where the runs do not fit. */
static void compare_whole(const struct answer *a, size_t length)
{
    if (a->pairs != 1 || pair_offset(listing.library, 0) != 0 ||
        pair_length(listing.library, 0) != length)
        fail("the runs do not fit, and the list is not the pair 0, L");
}

void compare_listed(const struct call *c, const struct answer *a)
{
    size_t length = c->image_len;
    size_t room = c->list_len / PAIR;

    if (!guards_hold(work.library, work.length, work.shift))
        fail("bytes outside the working slice changed");
    if (a->number != 0 && a->pairs != 0)
        fail("a refused call answers pairs");
    if (a->pairs > room)
        fail("more pairs than the list can hold");
    compare_slice("the list", &listing, PAIR * (size_t)a->pairs);
    if (a->number != 0)
        return;
    if (count_changed(lent.before, lent.library, length).runs > room)
        compare_whole(a, length);
    else
        compare_pairs(listing.library, a->pairs, length);
    copy_stretches(listing.library, a->pairs, length);
}
