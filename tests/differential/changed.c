/* What a call changed: foreseen, and its pairs against their definition. */
#include "parts.h"

#include <string.h>

#define MOST_COPIED (4 * MIB16) /* longer slices hold no image */

struct changed count_changed(const uint8_t *a, const uint8_t *b,
                             size_t length)
{
    struct changed c = { 0, 0 };
    int inside = 0;

    for (size_t i = 0; i < length; i++) {
        if (!inside && length - i >= 64 && memcmp(a + i, b + i, 64) == 0) {
            i += 63;
            continue;
        }
        c.runs += a[i] != b[i] && !inside;
        c.bytes += a[i] != b[i];
        inside = a[i] != b[i];
    }
    return c;
}

struct changed foresee(void)
{
    const struct changed none = { 0, 0 };
    struct call plain = list.now;

    if (plain.image_len > lent.length)
        return none;
    plain.form = PLAIN;
    memcpy(lent.scratch, lent.before, plain.image_len);
    perform_plain(lent.scratch, &plain);
    return count_changed(lent.before, lent.scratch, plain.image_len);
}

static size_t choose_work_length(void)
{
    size_t length = list.now.image_len;
    uint32_t style = below(16);

    if (length > MOST_COPIED || (style == 0 && length > 0))
        return length - 1 - (one_in(2) ? below((uint32_t)length) : 0);
    return length + (style < 4 ? below(100) : 0);
}

size_t widen(size_t length)
{
    if (data_size > POOL && one_in(800))
        length += (size_t)(UINT64_C(1) << 32);
    return length;
}

void lend_work(void)
{
    list.now.work_len = widen(choose_work_length());
    lend_slice(&work, list.now.work_len);
    if (one_in(4))
        fill_slice(&work);
}

uint32_t pair_offset(const uint8_t *pairs, uint32_t i)
{
    return get32(pairs + PAIR * (size_t)i);
}

uint32_t pair_length(const uint8_t *pairs, uint32_t i)
{
    return get32(pairs + PAIR * (size_t)i + 4);
}

/* Every byte changed, and the stretch is behind the last one and does not touch
 * it. */
static void compare_pair(const uint8_t *pairs, uint32_t i, size_t length)
{
    uint32_t at = pair_offset(pairs, i);
    uint32_t size = pair_length(pairs, i);

    if (size == 0 || at > length || size > length - at)
        fail("a pair leaves the image or is empty");
    if (i > 0 && at <= pair_offset(pairs, i - 1) + pair_length(pairs, i - 1))
        fail("a pair is not behind the last one, with a byte between");
    for (uint32_t k = 0; k < size; k++)
        if (lent.before[at + k] == lent.library[at + k])
            fail("a listed byte kept its value");
}

void compare_pairs(const uint8_t *pairs, uint32_t count, size_t length)
{
    for (uint32_t i = 0; i < count; i++)
        compare_pair(pairs, i, length);
}

void copy_stretches(const uint8_t *pairs, uint32_t count, size_t length)
{
    for (uint32_t i = 0; i < count; i++)
        memcpy(lent.before + pair_offset(pairs, i),
               lent.library + pair_offset(pairs, i), pair_length(pairs, i));
    if (memcmp(lent.before, lent.library, length) != 0)
        fail("a changed byte is not listed");
}

void compare_slice(const char *what, const struct slice *s, size_t written)
{
    size_t seen = seen_of(s);

    if (memcmp(s->library, s->plain, seen) != 0)
        fail_slice(what, "is not plain C's");
    if (written < seen && memcmp(s->library + written, s->before + written,
                                 seen - written) != 0)
        fail_slice(what, "changed behind what is written there");
    if (!guards_hold(s->library, s->length, s->shift))
        fail_slice(what, "was left");
}
