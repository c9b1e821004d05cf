/* Where two images differ: for the journal, and for records that travel. */
#include "layer.h"

int layer_next_run(const uint8_t *a, const uint8_t *b, size_t *at, size_t end,
                   struct layer_run *run)
{
    run->from = bhtf_next_change(a, end, b, end, *at, &run->size);
    *at = run->from + run->size;
    return run->size > 0;
}
