/* Records that travel, within the library. */
#ifndef LAYER_DELTA_H
#define LAYER_DELTA_H

#include "bhtf_delta.h"

/* As bhtf_delta_apply, but the new image is made in `work`, which has image_len
 * bytes, and the image stays. Where no record is applied, `work` is of no
 * use. */
uint32_t layer_apply(const uint8_t *image, size_t image_len,
                     const uint8_t *records, size_t records_len,
                     const uint8_t *end, uint8_t *work,
                     struct bhtf_applied *done);

#endif
