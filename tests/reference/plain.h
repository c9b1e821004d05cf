/* The control point file of 01-scope.md, in plain C on one image, with what
 * 02-change-requests.md changed. Every call answers the document's number, 0 when accepted. */
#ifndef PLAIN_H
#define PLAIN_H

#include <stddef.h>
#include <stdint.h>

uint32_t plain_create(uint8_t *image, size_t image_len, uint32_t key_size,
                      uint32_t slots, uint32_t seed);

uint32_t plain_add(uint8_t *image, size_t image_len, const uint8_t *key,
                   size_t key_len, const uint8_t *data, size_t data_len,
                   uint32_t mode);

uint32_t plain_delete(uint8_t *image, size_t image_len, const uint8_t *key,
                      size_t key_len);

/* Offset of the first message byte and length; both 0 with no active message
 * or when refused. An empty message has an offset. */
uint32_t plain_lookup(const uint8_t *image, size_t image_len,
                      const uint8_t *key, size_t key_len, uint32_t *offset,
                      uint32_t *length);

/* The same calls, which also say how many slots the search read: 0 when
 * refused before it. */
uint32_t plain_add_slots(uint8_t *image, size_t image_len, const uint8_t *key,
                         size_t key_len, const uint8_t *data, size_t data_len,
                         uint32_t mode, uint32_t *slots_read);
uint32_t plain_delete_slots(uint8_t *image, size_t image_len,
                            const uint8_t *key, size_t key_len,
                            uint32_t *slots_read);
uint32_t plain_lookup_slots(const uint8_t *image, size_t image_len,
                            const uint8_t *key, size_t key_len,
                            uint32_t *offset, uint32_t *length,
                            uint32_t *slots_read);

/* 0 when refused. */
uint32_t plain_count(const uint8_t *image, size_t image_len, uint32_t *count);

/* Both 0 at the end or when refused; a key offset is never 0 otherwise. */
uint32_t plain_walk(const uint8_t *image, size_t image_len, uint32_t from,
                    uint32_t *slot, uint32_t *key_offset);

/* Verdict 0 sound, 1 the slot fails, 2 the count fails; slot 0 unless the
 * verdict is 1. Both 0 when refused. */
uint32_t plain_check(const uint8_t *image, size_t image_len,
                     uint32_t *verdict, uint32_t *slot);

/* Moves the active messages down, lowers X, zeroes what is behind; 15 if the
 * image is not sound. */
uint32_t plain_compact(uint8_t *image, size_t image_len);

/* Carries a sound image into a second slice, which does not overlap it, as the
 * other version: 2.0.0 from 1.0.0 to 1.0.2, 1.0.2 from 2.0.0. Compacted; bytes
 * that are no point's, no message's and not the header's are zero. 1 for either
 * slice, then 5, 6 and 15 of the source, 20 for an active message that is too
 * long for 1.0.2, 13 for a target that is too small. */
uint32_t plain_convert(const uint8_t *source, size_t source_len,
                       uint8_t *target, size_t target_len);

/* Readings by column: stores, as mode 2 does, one byte W, then the first byte
 * of every record, then the second bytes, and so on. 19, after 7, for a W that
 * is not from 1 to 64 or record bytes that are not a multiple of it. */
uint32_t plain_store_columns(uint8_t *image, size_t image_len,
                             const uint8_t *key, size_t key_len,
                             const uint8_t *records, size_t records_len,
                             uint32_t width);

/* The records again, and how many bytes they have; 0 when refused. W is the
 * message's first byte, 0 if there is none. 19, after 11, also for a slice
 * that is too short. */
uint32_t plain_read_columns(const uint8_t *image, size_t image_len,
                            const uint8_t *key, size_t key_len, uint8_t *out,
                            size_t out_len, uint32_t *bytes);

/* The taken slots whose every key byte lies between the lowest and the highest
 * of its position, rising, 4 bytes each; how many, 0 when refused. 22 for ranges
 * that are not K or a lowest above its highest, then 16 for a list that cannot
 * hold N slot numbers. */
uint32_t plain_select(const uint8_t *image, size_t image_len,
                      const uint8_t *lowest, size_t lowest_len,
                      const uint8_t *highest, size_t highest_len,
                      uint8_t *list, size_t list_len, uint32_t *found);

/* Of the entries whose key begins with the name, and ends with an epoch number
 * of 4 bytes, the one with the largest epoch at most the given one, the lowest
 * slot if two: its epoch, and its message as lookup shows it. All 0 when
 * refused: 23 for K below 5, 7 for a name that has not K - 4 bytes, 14 for no
 * such entry, then 11. */
uint32_t plain_at_epoch(const uint8_t *image, size_t image_len,
                        const uint8_t *name, size_t name_len, uint32_t epoch,
                        uint32_t *shown, uint32_t *offset, uint32_t *length);

/* Growth into a larger table: starts it from a sound image and a second, empty
 * one; writes nothing. 15 if the old one is not sound, then 21 if the second one
 * is not sound, not empty, of another major version or K, with no more slots, or
 * too small for the active messages. */
uint32_t plain_grow(const uint8_t *old, size_t old_len, const uint8_t *new,
                    size_t new_len);

/* The calls on the pair, which do not overlap. Each accepted add, storing and
 * delete first moves the point it names to the new image, if it is in the old
 * one, acts there, then moves up to 8 points more, from the old image's lowest
 * taken slot. 21, after 6, for a second image that is none, or of another major
 * version or K. */
uint32_t plain_grow_add(uint8_t *old, size_t old_len, uint8_t *new,
                        size_t new_len, const uint8_t *key, size_t key_len,
                        const uint8_t *data, size_t data_len, uint32_t mode);
uint32_t plain_grow_delete(uint8_t *old, size_t old_len, uint8_t *new,
                           size_t new_len, const uint8_t *key,
                           size_t key_len);
uint32_t plain_grow_store_columns(uint8_t *old, size_t old_len, uint8_t *new,
                                  size_t new_len, const uint8_t *key,
                                  size_t key_len, const uint8_t *records,
                                  size_t records_len, uint32_t width);

/* In the old image, else in the new one; in_new is 1 if the message shown is in
 * the new one, else 0. */
uint32_t plain_grow_lookup(const uint8_t *old, size_t old_len,
                           const uint8_t *new, size_t new_len,
                           const uint8_t *key, size_t key_len,
                           uint32_t *in_new, uint32_t *offset,
                           uint32_t *length);
uint32_t plain_grow_count(const uint8_t *old, size_t old_len,
                          const uint8_t *new, size_t new_len,
                          uint32_t *count);
uint32_t plain_grow_read_columns(const uint8_t *old, size_t old_len,
                                 const uint8_t *new, size_t new_len,
                                 const uint8_t *key, size_t key_len,
                                 uint8_t *out, size_t out_len,
                                 uint32_t *bytes);

/* The old image's slots, then the new one's; the list must hold both N. */
uint32_t plain_grow_select(const uint8_t *old, size_t old_len,
                           const uint8_t *new, size_t new_len,
                           const uint8_t *lowest, size_t lowest_len,
                           const uint8_t *highest, size_t highest_len,
                           uint8_t *list, size_t list_len,
                           uint32_t *old_found, uint32_t *new_found);

/* Over both images, the old one's first at a tie. */
uint32_t plain_grow_at_epoch(const uint8_t *old, size_t old_len,
                             const uint8_t *new, size_t new_len,
                             const uint8_t *name, size_t name_len,
                             uint32_t epoch, uint32_t *shown,
                             uint32_t *in_new, uint32_t *offset,
                             uint32_t *length);

/* The same calls, which also list what they changed: pairs of offset and
 * length, one for each run of bytes whose value changed, or the pair 0, L if
 * these do not fit; how many pairs, 0 when refused. 16 for a list below 8
 * bytes or a working slice shorter than the image. */
uint32_t plain_add_listed(uint8_t *image, size_t image_len,
                          const uint8_t *key, size_t key_len,
                          const uint8_t *data, size_t data_len, uint32_t mode,
                          uint8_t *work, size_t work_len, uint8_t *list,
                          size_t list_len, uint32_t *pairs);
uint32_t plain_delete_listed(uint8_t *image, size_t image_len,
                             const uint8_t *key, size_t key_len,
                             uint8_t *work, size_t work_len, uint8_t *list,
                             size_t list_len, uint32_t *pairs);
uint32_t plain_compact_listed(uint8_t *image, size_t image_len, uint8_t *work,
                              size_t work_len, uint8_t *list, size_t list_len,
                              uint32_t *pairs);

/* The next run of bytes that differ, at `from` or behind it, as far as both go:
 * where it begins, and how many bytes it has. Where there is none, that is the
 * end of the shorter, and 0. */
size_t plain_next_change(const uint8_t *before, size_t before_len,
                         const uint8_t *after, size_t after_len, size_t from,
                         size_t *size);

/* The calls by way of a journal, so that a cut does no harm: it takes the
 * number of pairs, the pairs and the new bytes, then its last byte, the mark,
 * becomes 0xA5, then the image is written, then the mark becomes 0. 16 for a
 * working slice shorter than the image; after all other questions 17 for a
 * journal that is too short or whose mark is not 0. */
uint32_t plain_add_journaled(uint8_t *image, size_t image_len,
                             const uint8_t *key, size_t key_len,
                             const uint8_t *data, size_t data_len,
                             uint32_t mode, uint8_t *work, size_t work_len,
                             uint8_t *journal, size_t journal_len);
uint32_t plain_delete_journaled(uint8_t *image, size_t image_len,
                                const uint8_t *key, size_t key_len,
                                uint8_t *work, size_t work_len,
                                uint8_t *journal, size_t journal_len);
uint32_t plain_compact_journaled(uint8_t *image, size_t image_len,
                                 uint8_t *work, size_t work_len,
                                 uint8_t *journal, size_t journal_len);

/* Rewrites the image from a marked journal; the mark becomes 0. 18, and nothing
 * changes, for a journal that is empty or marked and not whole. */
uint32_t plain_recover(uint8_t *image, size_t image_len, uint8_t *journal,
                       size_t journal_len);

#endif
