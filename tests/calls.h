/* The calls as a table of function pointers, so that the tests run on
 * the library, on the reference, or on a faulty copy of it. */
#ifndef CALLS_H
#define CALLS_H

#include <stddef.h>
#include <stdint.h>

struct calls {
    uint32_t (*create)(uint8_t *image, size_t image_len, uint32_t key_size,
                       uint32_t slots, uint32_t seed);
    uint32_t (*add)(uint8_t *image, size_t image_len, const uint8_t *key,
                    size_t key_len, const uint8_t *data, size_t data_len,
                    uint32_t mode);
    uint32_t (*remove)(uint8_t *image, size_t image_len, const uint8_t *key,
                       size_t key_len);
    uint32_t (*lookup)(const uint8_t *image, size_t image_len,
                       const uint8_t *key, size_t key_len, uint32_t *offset,
                       uint32_t *length);
    uint32_t (*count)(const uint8_t *image, size_t image_len,
                      uint32_t *count);
    uint32_t (*walk)(const uint8_t *image, size_t image_len, uint32_t from,
                     uint32_t *slot, uint32_t *key_offset);
    uint32_t (*check)(const uint8_t *image, size_t image_len,
                      uint32_t *verdict, uint32_t *slot);

    /* Three of them with the number of slots that the search read. */
    uint32_t (*add_slots)(uint8_t *image, size_t image_len,
                          const uint8_t *key, size_t key_len,
                          const uint8_t *data, size_t data_len, uint32_t mode,
                          uint32_t *slots_read);
    uint32_t (*remove_slots)(uint8_t *image, size_t image_len,
                             const uint8_t *key, size_t key_len,
                             uint32_t *slots_read);
    uint32_t (*lookup_slots)(const uint8_t *image, size_t image_len,
                             const uint8_t *key, size_t key_len,
                             uint32_t *offset, uint32_t *length,
                             uint32_t *slots_read);
    uint32_t (*compact)(uint8_t *image, size_t image_len);

    /* Into a second slice, as the other version. */
    uint32_t (*convert)(const uint8_t *source, size_t source_len,
                        uint8_t *target, size_t target_len);

    /* Readings by column. */
    uint32_t (*store_columns)(uint8_t *image, size_t image_len,
                              const uint8_t *key, size_t key_len,
                              const uint8_t *records, size_t records_len,
                              uint32_t width);
    uint32_t (*read_columns)(const uint8_t *image, size_t image_len,
                             const uint8_t *key, size_t key_len, uint8_t *out,
                             size_t out_len, uint32_t *bytes);

    /* Names in ranges. */
    uint32_t (*select)(const uint8_t *image, size_t image_len,
                       const uint8_t *lowest, size_t lowest_len,
                       const uint8_t *highest, size_t highest_len,
                       uint8_t *list, size_t list_len, uint32_t *found);

    /* Epochs. */
    uint32_t (*at_epoch)(const uint8_t *image, size_t image_len,
                         const uint8_t *name, size_t name_len, uint32_t epoch,
                         uint32_t *shown, uint32_t *offset, uint32_t *length);

    /* Growth: its start, and the calls on the pair. */
    uint32_t (*grow)(const uint8_t *old, size_t old_len, const uint8_t *new,
                     size_t new_len);
    uint32_t (*grow_add)(uint8_t *old, size_t old_len, uint8_t *new,
                         size_t new_len, const uint8_t *key, size_t key_len,
                         const uint8_t *data, size_t data_len, uint32_t mode);
    uint32_t (*grow_remove)(uint8_t *old, size_t old_len, uint8_t *new,
                            size_t new_len, const uint8_t *key,
                            size_t key_len);
    uint32_t (*grow_store_columns)(uint8_t *old, size_t old_len, uint8_t *new,
                                   size_t new_len, const uint8_t *key,
                                   size_t key_len, const uint8_t *records,
                                   size_t records_len, uint32_t width);
    uint32_t (*grow_lookup)(const uint8_t *old, size_t old_len,
                            const uint8_t *new, size_t new_len,
                            const uint8_t *key, size_t key_len,
                            uint32_t *in_new, uint32_t *offset,
                            uint32_t *length);
    uint32_t (*grow_count)(const uint8_t *old, size_t old_len,
                           const uint8_t *new, size_t new_len,
                           uint32_t *count);
    uint32_t (*grow_read_columns)(const uint8_t *old, size_t old_len,
                                  const uint8_t *new, size_t new_len,
                                  const uint8_t *key, size_t key_len,
                                  uint8_t *out, size_t out_len,
                                  uint32_t *bytes);
    uint32_t (*grow_select)(const uint8_t *old, size_t old_len,
                            const uint8_t *new, size_t new_len,
                            const uint8_t *lowest, size_t lowest_len,
                            const uint8_t *highest, size_t highest_len,
                            uint8_t *list, size_t list_len,
                            uint32_t *old_found, uint32_t *new_found);
    uint32_t (*grow_at_epoch)(const uint8_t *old, size_t old_len,
                              const uint8_t *new, size_t new_len,
                              const uint8_t *name, size_t name_len,
                              uint32_t epoch, uint32_t *shown,
                              uint32_t *in_new, uint32_t *offset,
                              uint32_t *length);

    /* Those that write a file, with the list of what they changed. */
    uint32_t (*add_listed)(uint8_t *image, size_t image_len,
                           const uint8_t *key, size_t key_len,
                           const uint8_t *data, size_t data_len,
                           uint32_t mode, uint8_t *work, size_t work_len,
                           uint8_t *list, size_t list_len, uint32_t *pairs);
    uint32_t (*remove_listed)(uint8_t *image, size_t image_len,
                              const uint8_t *key, size_t key_len,
                              uint8_t *work, size_t work_len, uint8_t *list,
                              size_t list_len, uint32_t *pairs);
    uint32_t (*compact_listed)(uint8_t *image, size_t image_len,
                               uint8_t *work, size_t work_len, uint8_t *list,
                               size_t list_len, uint32_t *pairs);

    /* The next run of bytes that differ, of any two slices. */
    size_t (*next_change)(const uint8_t *before, size_t before_len,
                          const uint8_t *after, size_t after_len, size_t from,
                          size_t *size);

    /* Those that write a file, by way of a journal, and recovery from it. */
    uint32_t (*add_journaled)(uint8_t *image, size_t image_len,
                              const uint8_t *key, size_t key_len,
                              const uint8_t *data, size_t data_len,
                              uint32_t mode, uint8_t *work, size_t work_len,
                              uint8_t *journal, size_t journal_len);
    uint32_t (*remove_journaled)(uint8_t *image, size_t image_len,
                                 const uint8_t *key, size_t key_len,
                                 uint8_t *work, size_t work_len,
                                 uint8_t *journal, size_t journal_len);
    uint32_t (*compact_journaled)(uint8_t *image, size_t image_len,
                                  uint8_t *work, size_t work_len,
                                  uint8_t *journal, size_t journal_len);
    uint32_t (*recover)(uint8_t *image, size_t image_len, uint8_t *journal,
                        size_t journal_len);
};

/* All of them, by the names that begin with p. */
#define CALLS_OF(p)                                                         \
    {                                                                       \
        p##_create, p##_add, p##_delete, p##_lookup, p##_count, p##_walk,   \
            p##_check, p##_add_slots, p##_delete_slots, p##_lookup_slots,   \
            p##_compact, p##_convert, p##_store_columns, p##_read_columns,  \
            p##_select, p##_at_epoch, p##_grow, p##_grow_add,               \
            p##_grow_delete, p##_grow_store_columns, p##_grow_lookup,       \
            p##_grow_count, p##_grow_read_columns, p##_grow_select,         \
            p##_grow_at_epoch, p##_add_listed, p##_delete_listed,           \
            p##_compact_listed, p##_next_change, p##_add_journaled,         \
            p##_delete_journaled, p##_compact_journaled, p##_recover,       \
    }

/* The code under test. */
extern const struct calls subject;

#endif
