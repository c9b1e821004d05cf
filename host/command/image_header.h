/* The header's numbers, for what the library has no call for. */
#ifndef IMAGE_HEADER_H
#define IMAGE_HEADER_H

#include <stdint.h>

struct header {
    uint8_t version[3];
    uint32_t message_header; /* bytes of a message before its text */
    uint32_t key_size;
    uint32_t slots;
    uint32_t count;
    uint32_t multiplier;
    uint32_t start;
    uint32_t first;
    uint32_t last;
    uint32_t data;
    uint32_t next;
};

/* Only for an image that bhtf_count has accepted. */
struct header header_read(const uint8_t *image);

/* The byte of the image at which a slot begins. */
uint32_t slot_offset(const struct header *h, uint32_t slot);

/* The number of a slot's message offset; 0 for no message. */
uint32_t slot_message(const uint8_t *image, const struct header *h,
                      uint32_t slot);

/* A message from its header to its end; no bytes, from 0 to 0, if none. */
struct stretch {
    uint32_t start;
    uint32_t end;
};

/* The stretch of a slot's message: 1, or 0 if the message is damaged, which is
 * the library's question 11. */
int slot_stretch(const uint8_t *image, const struct header *h, uint32_t slot,
                 struct stretch *s);

/* Scramble number i, from 0 to E - F. */
uint32_t scramble_number(const uint8_t *image, uint32_t i);

/* The slot where a key's search begins. */
uint32_t home_slot(const uint8_t *image, const struct header *h,
                   const uint8_t *key);

/* Bytes that the header and a table of these sizes take: the data offset. */
uint64_t table_end(uint64_t key_size, uint64_t slots);

/* The length of a file for such a table, with room for texts, if a file may be
 * that long. */
uint64_t usual_size(uint64_t key_size, uint64_t slots);

/* The library's question 1, for when space is to be taken before it is put. */
int size_fits(uint64_t size);

uint32_t read_u32(const uint8_t *at);
void write_u32(uint8_t *at, uint32_t number);

#endif
