/* The code under test: whatever is linked under the names bhtf_*. */
#include "calls.h"

/* With -DSUBJECT_HEADER='"name.h"' the compiler also compares the library's
 * own header with the declarations below. */
#ifdef SUBJECT_HEADER
#include SUBJECT_HEADER
#endif

uint32_t bhtf_create(uint8_t *image, size_t image_len, uint32_t key_size,
                     uint32_t slots, uint32_t seed);
uint32_t bhtf_add(uint8_t *image, size_t image_len, const uint8_t *key,
                  size_t key_len, const uint8_t *data, size_t data_len,
                  uint32_t mode);
uint32_t bhtf_delete(uint8_t *image, size_t image_len, const uint8_t *key,
                     size_t key_len);
uint32_t bhtf_lookup(const uint8_t *image, size_t image_len,
                     const uint8_t *key, size_t key_len, uint32_t *offset,
                     uint32_t *length);
uint32_t bhtf_count(const uint8_t *image, size_t image_len, uint32_t *count);
uint32_t bhtf_walk(const uint8_t *image, size_t image_len, uint32_t from,
                   uint32_t *slot, uint32_t *key_offset);
uint32_t bhtf_check(const uint8_t *image, size_t image_len,
                    uint32_t *verdict, uint32_t *slot);
uint32_t bhtf_add_slots(uint8_t *image, size_t image_len, const uint8_t *key,
                        size_t key_len, const uint8_t *data, size_t data_len,
                        uint32_t mode, uint32_t *slots_read);
uint32_t bhtf_delete_slots(uint8_t *image, size_t image_len,
                           const uint8_t *key, size_t key_len,
                           uint32_t *slots_read);
uint32_t bhtf_lookup_slots(const uint8_t *image, size_t image_len,
                           const uint8_t *key, size_t key_len,
                           uint32_t *offset, uint32_t *length,
                           uint32_t *slots_read);
uint32_t bhtf_compact(uint8_t *image, size_t image_len);
uint32_t bhtf_convert(const uint8_t *source, size_t source_len,
                      uint8_t *target, size_t target_len);
uint32_t bhtf_store_columns(uint8_t *image, size_t image_len,
                            const uint8_t *key, size_t key_len,
                            const uint8_t *records, size_t records_len,
                            uint32_t width);
uint32_t bhtf_read_columns(const uint8_t *image, size_t image_len,
                           const uint8_t *key, size_t key_len, uint8_t *out,
                           size_t out_len, uint32_t *bytes);
uint32_t bhtf_select(const uint8_t *image, size_t image_len,
                     const uint8_t *lowest, size_t lowest_len,
                     const uint8_t *highest, size_t highest_len,
                     uint8_t *list, size_t list_len, uint32_t *found);
uint32_t bhtf_at_epoch(const uint8_t *image, size_t image_len,
                       const uint8_t *name, size_t name_len, uint32_t epoch,
                       uint32_t *shown, uint32_t *offset, uint32_t *length);
uint32_t bhtf_grow(const uint8_t *old, size_t old_len, const uint8_t *new,
                    size_t new_len);
uint32_t bhtf_grow_add(uint8_t *old, size_t old_len, uint8_t *new,
                        size_t new_len, const uint8_t *key, size_t key_len,
                        const uint8_t *data, size_t data_len, uint32_t mode);
uint32_t bhtf_grow_delete(uint8_t *old, size_t old_len, uint8_t *new,
                           size_t new_len, const uint8_t *key,
                           size_t key_len);
uint32_t bhtf_grow_store_columns(uint8_t *old, size_t old_len, uint8_t *new,
                                  size_t new_len, const uint8_t *key,
                                  size_t key_len, const uint8_t *records,
                                  size_t records_len, uint32_t width);
uint32_t bhtf_grow_lookup(const uint8_t *old, size_t old_len,
                           const uint8_t *new, size_t new_len,
                           const uint8_t *key, size_t key_len,
                           uint32_t *in_new, uint32_t *offset,
                           uint32_t *length);
uint32_t bhtf_grow_count(const uint8_t *old, size_t old_len,
                          const uint8_t *new, size_t new_len,
                          uint32_t *count);
uint32_t bhtf_grow_read_columns(const uint8_t *old, size_t old_len,
                                 const uint8_t *new, size_t new_len,
                                 const uint8_t *key, size_t key_len,
                                 uint8_t *out, size_t out_len,
                                 uint32_t *bytes);
uint32_t bhtf_grow_select(const uint8_t *old, size_t old_len,
                           const uint8_t *new, size_t new_len,
                           const uint8_t *lowest, size_t lowest_len,
                           const uint8_t *highest, size_t highest_len,
                           uint8_t *list, size_t list_len,
                           uint32_t *old_found, uint32_t *new_found);
uint32_t bhtf_grow_at_epoch(const uint8_t *old, size_t old_len,
                             const uint8_t *new, size_t new_len,
                             const uint8_t *name, size_t name_len,
                             uint32_t epoch, uint32_t *shown,
                             uint32_t *in_new, uint32_t *offset,
                             uint32_t *length);
uint32_t bhtf_add_listed(uint8_t *image, size_t image_len, const uint8_t *key,
                         size_t key_len, const uint8_t *data, size_t data_len,
                         uint32_t mode, uint8_t *work, size_t work_len,
                         uint8_t *list, size_t list_len, uint32_t *pairs);
uint32_t bhtf_delete_listed(uint8_t *image, size_t image_len,
                            const uint8_t *key, size_t key_len, uint8_t *work,
                            size_t work_len, uint8_t *list, size_t list_len,
                            uint32_t *pairs);
uint32_t bhtf_compact_listed(uint8_t *image, size_t image_len, uint8_t *work,
                             size_t work_len, uint8_t *list, size_t list_len,
                             uint32_t *pairs);
size_t bhtf_next_change(const uint8_t *before, size_t before_len,
                        const uint8_t *after, size_t after_len, size_t from,
                        size_t *size);
uint32_t bhtf_add_journaled(uint8_t *image, size_t image_len,
                            const uint8_t *key, size_t key_len,
                            const uint8_t *data, size_t data_len,
                            uint32_t mode, uint8_t *work, size_t work_len,
                            uint8_t *journal, size_t journal_len);
uint32_t bhtf_delete_journaled(uint8_t *image, size_t image_len,
                               const uint8_t *key, size_t key_len,
                               uint8_t *work, size_t work_len,
                               uint8_t *journal, size_t journal_len);
uint32_t bhtf_compact_journaled(uint8_t *image, size_t image_len,
                                uint8_t *work, size_t work_len,
                                uint8_t *journal, size_t journal_len);
uint32_t bhtf_recover(uint8_t *image, size_t image_len, uint8_t *journal,
                      size_t journal_len);

const struct calls subject = CALLS_OF(bhtf);
