/* A touch-up session from C: open, take, put, a gesture of several puts, undo, redo, retime, pool, and the kept class and
 * a cover mask after each. The same as examples/rust/touch_up.rs. */
#include "unit_bytes.h"
#include "unit_session.h"
#include <stdio.h>
#include <stdlib.h>

/* Ends the program where a call is refused that should not be. */
static void accepted(const char *what, uint32_t number) {
    if (number == UNIT_ACCEPTED) return;
    fprintf(stderr, "%s: refused by %u: %s\n", what, (unsigned)number, unit_text(number));
    exit(1);
}

/* Both sets of nine blocks: every backward vector x to the right, with a sad for each, every forward one at rest. */
static void payload(unit_shape shape, int16_t x, const int32_t sads[9], uint8_t *bytes, size_t len) {
    uint8_t backward[9 * UNIT_ENTRY_SIZE], forward[9 * UNIT_ENTRY_SIZE];
    for (size_t block = 0; block < 9; block++) {
        accepted("entry", unit_write_entry(backward, sizeof backward, block, x, 0, sads[block], 90));
        accepted("entry", unit_write_entry(forward, sizeof forward, block, 0, 0, 10, 110));
    }
    accepted("payload", unit_write_payload(bytes, len, shape, backward, sizeof backward, forward, sizeof forward));
}

/* So many zeros, in place and counted. */
static void *zeros(size_t *len, size_t count, size_t size) {
    void *made = calloc(*len = count, size);
    if (made) return made;
    fputs("there is no memory for the buffers\n", stderr);
    exit(1);
}

static void show(const char *what, const unit_session *session, const unit_buffers *b) {
    uint8_t mask[9];
    unit_sizes_answer size = unit_sizes(session->shape);
    unit_class judged = unit_session_kept_class(session);
    accepted("kept class", judged.number);
    accepted("cover mask", unit_session_cover_mask(session, b, UNIT_COVER_WHOLE, 1.0, mask, sizeof mask));
    printf("%s: time %d past %u future %u class %u, of %u counted: scene %u m2 %u m1 %u\n", what, (int)session->time,
           (unsigned)session->past, (unsigned)session->future, (unsigned)judged.value, (unsigned)session->kept.counted,
           (unsigned)session->kept.scene, (unsigned)session->kept.m2, (unsigned)session->kept.m1);
    for (size_t y = 0; y < size.packed_height; y++) {
        putchar(' ');
        for (size_t x = 0; x < size.packed_width; x++) printf(" %3d", mask[size.packed_width * y + x]);
        putchar('\n');
    }
}

int main(void) {
    /* A picture of 24 by 24 in blocks of 8 by 8; payloads have both halves. */
    unit_shape shape = {UNIT_FLAG_BACKWARD | UNIT_FLAG_FORWARD, 8, 8, 1, 24, 24, 0, 0, 3, 3, 0};
    unit_limits limits = {20, 20, 60, 120, 240};
    uint8_t table[UNIT_TABLE_LEN], first[256], second[256];
    for (int sum = 0; sum < UNIT_TABLE_LEN; sum++) table[sum] = (uint8_t)(sum / 2);

    unit_sizes_answer size = unit_sizes(shape);
    accepted("sizes", size.number);
    unit_buffers b;
    b.backward = zeros(&b.backward_len, size.backward, sizeof *b.backward);
    b.forward = zeros(&b.forward_len, size.forward, sizeof *b.forward);
    b.table = table, b.table_len = sizeof table;
    b.grid = zeros(&b.grid_len, size.grid, sizeof *b.grid);
    b.xs = zeros(&b.xs_len, size.xs, sizeof *b.xs);
    b.ys = zeros(&b.ys_len, size.ys, sizeof *b.ys);
    b.averages = zeros(&b.averages_len, size.averages, sizeof *b.averages);
    b.map = zeros(&b.map_len, size.map, sizeof *b.map);
    b.history = zeros(&b.history_len, 100 * UNIT_SLOT_SIZE, sizeof *b.history); /* 100 steps */

    unit_session session;
    accepted("open", unit_session_open(&session, &b, shape, UNIT_BACKWARD, limits, UNIT_TIME_WHOLE));
    show("open", &session, &b);
    static const int32_t same[9] = {30, 30, 30, 30, 30, 30, 30, 30, 30};
    payload(shape, 4, same, first, sizeof first);
    accepted("take", unit_session_take(&session, &b, first, unit_payload_len(shape)));
    show("take", &session, &b);
    uint32_t gesture = 0; /* counted up as a gesture begins */
    accepted("put", unit_session_put(&session, &b, UNIT_BACKWARD, 4, -8, 3, 500, 90, gesture));
    show("put", &session, &b);
    gesture++; /* a wheel turn: forty puts, which one undo takes back */
    for (int16_t x = 1; x <= 40; x++)
        accepted("turn", unit_session_put(&session, &b, UNIT_BACKWARD, 4, x, 3, 500, 90, gesture));
    show("turn", &session, &b);
    accepted("undo", unit_session_undo(&session, &b));
    show("undo", &session, &b);
    accepted("undo", unit_session_undo(&session, &b));
    show("undo", &session, &b);
    accepted("redo", unit_session_redo(&session, &b));
    show("redo", &session, &b);
    accepted("retime", unit_session_retime(&session, &b, -128));
    show("retime", &session, &b);
    /* A second estimator, whose sads are smaller in the upper row; where they are equal the first one's entry is kept. */
    static const int32_t rising[9] = {0, 10, 20, 30, 40, 50, 60, 70, 80};
    const size_t len = unit_payload_len(shape);
    payload(shape, -6, rising, second, sizeof second);
    accepted("pool", unit_session_pool(&session, &b, first, len, second, len));
    show("pool", &session, &b);
    gesture++;
    printf("put: %u\n", (unsigned)unit_session_put(&session, &b, UNIT_BACKWARD, 9, 0, 0, 0, 0, gesture));

    free(b.backward), free(b.forward), free(b.grid), free(b.xs), free(b.ys);
    free(b.averages), free(b.map), free(b.history);
    return 0;
}
