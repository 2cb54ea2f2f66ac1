/*
 * unit_bytes.h: writes the bytes that the calls of unit.h read: an entry of a set, a record, a payload.
 *
 * A convenience beside unit.h, which is the agreement. It is plain C and not proved; examples/c/bytes.c runs each
 * function and reads what it wrote back by unit_vector_data and unit_update. It needs memcpy and memset of the C
 * library, and unit_sizes of the archive, which judges the shape.
 *
 * A function that can refuse answers a number of unit.h and then writes nothing. The caller owes what unit.h says: each
 * pointer is valid for the bytes counted beside it, and what is read does not overlap what is written.
 */
#ifndef UNIT_BYTES_H
#define UNIT_BYTES_H

#include "unit.h"
#include <string.h>

#ifdef __cplusplus
extern "C" {
#endif

/* The four bytes of a number; not for use outside this header. */
static inline void unit_write_i32_(uint8_t *at, int32_t value) {
    uint32_t bits = (uint32_t)value;
    for (int i = 0; i < 4; i++) at[i] = (uint8_t)(bits >> (8 * i));
}

/* ---- An entry ---------------------------------------------------------------------------------------------------- */

/* The entry of a block in a set of set_len bytes.
 * Answers 0; 3 where the set ends before the entry does; 7 where the sad is outside 0 to UNIT_SAD_MOST. */
static inline uint32_t unit_write_entry(uint8_t *set, size_t set_len, size_t block, int16_t x, int16_t y, int32_t sad,
                                        uint8_t luma) {
    uint8_t *at;
    if (block >= set_len / UNIT_ENTRY_SIZE) return UNIT_SHORT_BUFFER;
    if (sad < 0 || sad > UNIT_SAD_MOST) return UNIT_OUT_OF_RANGE;
    at = set + UNIT_ENTRY_SIZE * block;
    at[0] = (uint8_t)y, at[1] = (uint8_t)((uint16_t)y >> 8);
    at[2] = (uint8_t)x, at[3] = (uint8_t)((uint16_t)x >> 8);
    unit_write_i32_(at + 4, sad); /* three bytes and a 0, in whose place the luma goes */
    at[7] = luma;
    return UNIT_ACCEPTED;
}

/* ---- A record ---------------------------------------------------------------------------------------------------- */

/* The record of a shape and a delta: unit_shape_of gives the shape again. Its number is 0. */
static inline unit_record unit_record_of(unit_shape shape, int32_t delta) {
    unit_record record;
    record.number = UNIT_ACCEPTED;
    record.flags = shape.flags;
    record.block.width = shape.block_w, record.block.height = shape.block_h;
    record.shape.width = shape.width, record.shape.height = shape.height;
    record.grid.width = shape.grid_w, record.grid.height = shape.grid_h;
    record.marker = shape.pel;
    record.selector = shape.selector;
    record.delta = delta;
    record.overlap_x = shape.overlap_x, record.overlap_y = shape.overlap_y;
    return record;
}

/* The first UNIT_RECORD_LEN of data_len bytes become a record of these values, whatever its number; unit_vector_data
 * gives them again. The two i32 that no call reads, at 0x14 and 0x18, are 0. The values are not judged.
 * Answers 0; 3 where there are fewer bytes. */
static inline uint32_t unit_write_record(uint8_t *data, size_t data_len, unit_record record) {
    const int32_t words[UNIT_RECORD_LEN / 4] = {
        UNIT_RECORD_START,   record.flags,     record.block.width,  record.block.height, record.marker,
        0,                   0,                record.shape.width,  record.shape.height, record.overlap_x,
        record.overlap_y,    record.grid.width, record.grid.height, record.selector,     record.delta};
    if (data_len < UNIT_RECORD_LEN) return UNIT_SHORT_BUFFER;
    for (int i = 0; i < UNIT_RECORD_LEN / 4; i++) unit_write_i32_(data + 4 * i, words[i]);
    return UNIT_ACCEPTED;
}

/* ---- A payload --------------------------------------------------------------------------------------------------- */

/* The bytes of a payload of this shape: its head, and as far as the last half that the shape's flags ask for. 0 where
 * the shape is beyond its limits. */
static inline size_t unit_payload_len(unit_shape shape) {
    unit_sizes_answer least = unit_sizes(shape);
    if (least.number != UNIT_ACCEPTED) return 0;
    if (shape.flags & UNIT_FLAG_FORWARD) return UNIT_PAYLOAD_BACKWARD + 4 + least.backward + 4 + least.forward;
    if (shape.flags & UNIT_FLAG_BACKWARD) return UNIT_PAYLOAD_BACKWARD + 4 + least.backward;
    return UNIT_PAYLOAD_HEAD;
}

/* A half: 2n+1 and the set; not for use outside this header. */
static inline void unit_write_half_(uint8_t *at, const uint8_t *set, size_t set_len) {
    unit_write_i32_(at, (int32_t)(2 * (set_len / UNIT_ENTRY_SIZE) + 1));
    memcpy(at + 4, set, set_len);
}

/* The first unit_payload_len(shape) of payload_len bytes become a payload: the head with the shape's flags, and of each
 * set that they ask for its first 8n bytes. A set that they do not ask for is not read and may be null. The bytes that
 * no call reads are 0.
 * Answers 0; 2 where the shape is beyond its limits; 3 where a set that is asked for, or the payload, has fewer
 * bytes. */
static inline uint32_t unit_write_payload(uint8_t *payload, size_t payload_len, unit_shape shape,
                                          const uint8_t *backward, size_t backward_len, const uint8_t *forward,
                                          size_t forward_len) {
    const unit_sizes_answer least = unit_sizes(shape);
    const size_t len = unit_payload_len(shape);
    const int has_backward = shape.flags & UNIT_FLAG_BACKWARD, has_forward = shape.flags & UNIT_FLAG_FORWARD;
    if (least.number != UNIT_ACCEPTED) return least.number;
    if (payload_len < len || (has_backward && backward_len < least.backward)
        || (has_forward && forward_len < least.forward))
        return UNIT_SHORT_BUFFER;
    memset(payload, 0, len);
    unit_write_i32_(payload, UNIT_PAYLOAD_START);
    unit_write_i32_(payload + 4, UNIT_RECORD_START);
    unit_write_i32_(payload + 8, shape.flags);
    if (has_backward) unit_write_half_(payload + UNIT_PAYLOAD_BACKWARD, backward, least.backward);
    if (has_forward) unit_write_half_(payload + len - least.forward - 4, forward, least.forward);
    return UNIT_ACCEPTED;
}

#ifdef __cplusplus
}
#endif

#endif
