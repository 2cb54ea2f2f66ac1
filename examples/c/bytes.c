/* Every function of unit_bytes.h: the bytes that it writes, and the same as unit_vector_data and unit_update read them.
 * What it prints is compared with bytes.expected. */
#include "print.h"
#include "unit_bytes.h"

/* Numbers of either end at a block, then what is refused. */
static void entries(void) {
    uint8_t set[17];
    memset(set, 9, sizeof set);
    unsigned first = unit_write_entry(set, 17, 0, -2, 0x1234, 0, 200);
    unsigned last = unit_write_entry(set, 17, 1, 32767, -32768, UNIT_SAD_MOST, 0);
    printf("entry: %u %u\n", first, last);
    bytes("set", set, sizeof set);
    printf("refused: %u %u %u %u %u %u\n", (unsigned)unit_write_entry(set, 17, 2, 1, 1, 1, 1),
           (unsigned)unit_write_entry(set, 7, 0, 1, 1, 1, 1), (unsigned)unit_write_entry(NULL, 0, 0, 1, 1, 1, 1),
           (unsigned)unit_write_entry(set, 17, SIZE_MAX, 1, 1, 1, 1),
           (unsigned)unit_write_entry(set, 17, 0, 1, 1, UNIT_SAD_MOST + 1, 1),
           (unsigned)unit_write_entry(set, 17, 0, 1, 1, -1, 1));
    bytes("set", set, sizeof set);
}

/* A record whose values are all different, behind it surplus; and the same read back. */
static void records(void) {
    const unit_shape shape = {-5, 102, 103, 104, 107, 108, 109, 110, 111, 112, 113};
    uint8_t data[62];
    memset(data, 9, sizeof data);
    const unit_record given = unit_record_of(shape, 114);
    printf("record: %u\n", (unsigned)unit_write_record(data, sizeof data, given));
    bytes("data", data, sizeof data);
    const unit_record read = unit_vector_data(data, sizeof data);
    const unit_shape again = unit_shape_of(read);
    printf("read back: %s, its shape: %s\n", memcmp(&read, &given, sizeof read) ? "something else" : "as given",
           memcmp(&again, &shape, sizeof shape) ? "something else" : "as given");
    memset(data, 9, sizeof data);
    printf("refused: %u\n", (unsigned)unit_write_record(data, 59, given));
    bytes("data", data, sizeof data);
}

/* A payload of two blocks, of exactly its length, and the sets that unit_update makes of it. */
static void payload_of(int32_t flags) {
    const unit_shape shape = {flags, 8, 8, 1, 16, 8, 0, 0, 2, 1, 0};
    uint8_t sets[2][16], payload[110], backward[16], forward[16];
    for (int i = 0; i < 16; i++) sets[0][i] = (uint8_t)(10 + i), sets[1][i] = (uint8_t)(40 + i);
    memset(payload, 9, sizeof payload), memset(backward, 0, 16), memset(forward, 0, 16);
    const uint8_t *given[2] = {flags & UNIT_FLAG_BACKWARD ? sets[0] : NULL, flags & UNIT_FLAG_FORWARD ? sets[1] : NULL};
    const size_t lengths[2] = {given[0] ? 16 : 0, given[1] ? 16 : 0}, len = unit_payload_len(shape);
    printf("flags %d: %zu bytes, short by one: %u, ", (int)flags, len,
           (unsigned)unit_write_payload(payload, len - 1, shape, given[0], lengths[0], given[1], lengths[1]));
    uint32_t written = unit_write_payload(payload, len, shape, given[0], lengths[0], given[1], lengths[1]);
    printf("written: %u, behind it: %d, ", (unsigned)written, payload[len]);
    printf("update: %u, without its last byte: %u\n",
           (unsigned)unit_update(shape, payload, len, backward, 16, forward, 16),
           (unsigned)unit_update(shape, payload, len - 1, backward, 16, forward, 16));
    bytes("  backward", backward, 16);
    bytes("  forward", forward, 16);
    if (flags == 3) bytes("  payload", payload, len);
}

/* A set too short, one not given, and a shape beyond its limits. */
static void payloads_refused(void) {
    unit_shape shape = {3, 8, 8, 1, 16, 8, 0, 0, 2, 1, 0};
    uint8_t set[16] = {0}, payload[104];
    memset(payload, 9, sizeof payload);
    printf("refused: %u %u %u", (unsigned)unit_write_payload(payload, 104, shape, set, 15, set, 16),
           (unsigned)unit_write_payload(payload, 104, shape, set, 16, set, 15),
           (unsigned)unit_write_payload(payload, 104, shape, NULL, 0, set, 16));
    shape.pel = 0;
    printf(" %u, %zu bytes, the first %d\n", (unsigned)unit_write_payload(payload, 104, shape, set, 16, set, 16),
           unit_payload_len(shape), payload[0]);
}

int main(void) {
    entries();
    records();
    for (int32_t flags = 0; flags <= 3; flags++) payload_of(flags);
    payload_of(-2);
    payloads_refused();
    return 0;
}
