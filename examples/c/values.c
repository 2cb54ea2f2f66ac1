/* Every field of every struct in the headers, and every buffer of every call, is at its own place: values told apart,
 * save those of unit_sizes that are equal at every shape: both sets; both planes and the mask; averages and map. What
 * it prints is compared with values.expected. */
#include "print.h"
#include "unit_bytes.h"
#include "unit_session.h"

static void shape_fields(unit_shape s) {
    printf("shape: %d %d %d %d %d %d %d %d %d %d %d\n", s.flags, s.block_w, s.block_h, s.pel, s.width, s.height,
           s.overlap_x, s.overlap_y, s.grid_w, s.grid_h, s.selector);
}

static void answer(const char *what, unit_answer a) {
    unit_session s = a.session;
    printf("%s: number %u side %u limits %d %d %d %d %d time %d past %u future %u kept %u %u %u %u, ", what,
           (unsigned)a.number, (unsigned)s.side, s.limits.blocks, s.limits.zero, s.limits.m1, s.limits.m2,
           s.limits.scene, s.time, (unsigned)s.past, (unsigned)s.future, (unsigned)s.kept.counted,
           (unsigned)s.kept.scene, (unsigned)s.kept.m2, (unsigned)s.kept.m1);
    shape_fields(s.shape);
}

/* A record whose i32 at each place is told by its place; x86-64 has them little-endian. */
static void record(void) {
    int32_t words[15] = {UNIT_RECORD_START};
    const uint8_t *data = (const uint8_t *)words;
    for (int place = 1; place < 15; place++) words[place] = 1000 + place;
    unit_record r = unit_vector_data(data, sizeof words);
    printf("record: number %u flags %d block %d %d shape %d %d grid %d %d marker %d selector %d delta %d overlap %d %d\n",
           (unsigned)r.number, r.flags, r.block.width, r.block.height, r.shape.width, r.shape.height, r.grid.width,
           r.grid.height, r.marker, r.selector, r.delta, r.overlap_x, r.overlap_y);
    shape_fields(unit_shape_of(r));
    printf("short: %u, empty: %u\n", (unsigned)unit_vector_data(data, 59).number,
           (unsigned)unit_vector_data(NULL, 0).number);
}

static void sizes(unit_shape shape) {
    unit_sizes_answer z = unit_sizes(shape);
    printf("sizes: number %u, %zu %zu %zu %zu %zu %zu %zu %zu %zu %zu, W %zu H %zu\n", (unsigned)z.number, z.backward,
           z.forward, z.table, z.grid, z.xs, z.ys, z.averages, z.map, z.history, z.mask, z.packed_width, z.packed_height);
}

/* Two blocks side by side, a payload for them, and the averages of its lumas in a table. */
static const unit_shape two = {3, 8, 8, 1, 16, 8, 0, 0, 2, 1, 1};
static uint8_t payload[64 + 2 * 20], table[UNIT_TABLE_LEN];

static void fill(void) {
    uint8_t backward[16], forward[16];
    unit_write_entry(backward, 16, 0, 1, 2, 8, 10), unit_write_entry(backward, 16, 1, -3, 4, 16, 20);
    unit_write_entry(forward, 16, 0, 5, 6, 0, 30), unit_write_entry(forward, 16, 1, 7, -8, 8, 40);
    unit_write_payload(payload, sizeof payload, two, backward, 16, forward, 16);
    table[40] = 1, table[60] = 255;
}

/* Each call over the two sets. */
static void field(void) {
    unit_shape shape = two;
    unit_limits limits = {200, 2000, 2100, 4000, 5000};
    uint8_t backward[16], forward[16], averages[2], map[2], mask[2];
    uint16_t xs[2], ys[2];
    int32_t scratch[13];
    printf("update: %u\n", (unsigned)unit_update(shape, payload, sizeof payload, backward, 16, forward, 16));
    bytes("backward", backward, 16);
    bytes("forward", forward, 16);
    printf("avg_luma: %u\n", (unsigned)unit_avg_luma(shape, backward, 16, forward, 16, table, sizeof table, averages, 2));
    bytes("averages", averages, 2);
    for (uint32_t side = 1; side <= 3; side++) {
        uint32_t packed = unit_pack(shape, side, backward, 16, forward, 16, xs, 2, ys, 2);
        printf("pack: %u, %d %d, %d %d\n", (unsigned)packed, xs[0], xs[1], ys[0], ys[1]);
        uint32_t mapped = unit_quality_map(shape, side, limits, backward, 16, forward, 16, averages, 2, map, 2);
        unit_class judged = unit_quality(shape, side, limits, backward, 16, forward, 16, averages, 2);
        printf("quality: %u %u class %u, ", (unsigned)mapped, (unsigned)judged.number, (unsigned)judged.value);
        bytes("map", map, 2);
        uint32_t sad = unit_sad_mask(shape, side, backward, 16, forward, 16, 100, 1.0, mask, 2);
        printf("sad_mask: %u, ", (unsigned)sad);
        bytes("mask", mask, 2);
        uint32_t cover = unit_cover_mask(shape, side, backward, 16, forward, 16, 100, 1.0, 256, scratch, 13, mask, 2);
        printf("cover_mask: %u, cells %d %d, trash %d, ", (unsigned)cover, scratch[5], scratch[6], scratch[12]);
        bytes("mask", mask, 2);
    }
}

static void moved(const char *what, uint32_t number, const unit_session *s) {
    printf("%s: %u, past %u future %u\n", what, (unsigned)number, (unsigned)s->past, (unsigned)s->future);
}

/* Behind a step of gesture 0x89ABCDEF one more of it, and one of another; then a side of the first slot that is wrong. */
static void runs(unit_session *s, const unit_buffers *b) {
    moved("put", unit_session_put(s, b, 1, 3, 1, 1, 1, 1, 0x89ABCDEF), s);
    moved("put", unit_session_put(s, b, 2, 7, 4, 4, 4, 4, 0xEFCDAB89), s);
    for (int k = 0; k < 3; k++) moved("undo", unit_session_undo(s, b), s);
    for (int k = 0; k < 3; k++) moved("redo", unit_session_redo(s, b), s);
    b->history[4] = 3;
    for (int k = 0; k < 2; k++) moved("undo", unit_session_undo(s, b), s);
}

/* Each field of a session and of an answer. */
static void session(void) {
    unit_shape shape = {-5, 8, 8, 1, 30, 20, 1, 2, 4, 3, 77};
    unit_limits limits = {11, 12, 13, 14, 15};
    uint8_t backward[96], forward[96], averages[12], map[12], history[92];
    int32_t grid[43];
    uint16_t xs[20], ys[20];
    sizes(shape);
    memset(history, 9, sizeof history);
    unit_buffers b = {backward, 96, forward, 96, table, sizeof table, grid, 43, xs, 20,
                      ys, 20, averages, 12, map, 12, history, 92};
    unit_session s;
    memset(&s, 3, sizeof s);
    unit_session before = s;
    uint32_t refused = unit_session_open(&s, &b, shape, 3, limits, -300);
    printf("refused open: %u, the session %s\n", (unsigned)refused, memcmp(&s, &before, sizeof s) ? "changed" : "as it was");
    unit_answer a = unit_open(shape, 2, limits, -300, backward, 96, forward, 96, table, sizeof table, grid, 43, xs, 20, ys, 20,
                              averages, 12, map, 12, history, 92);
    answer("open", a);
    s = a.session;
    a.number = unit_session_put(&s, &b, 2, 7, -2, 5, 0x123456, 200, 0x89ABCDEF);
    a.session = s;
    answer("put", a);
    bytes("entry", forward + 56, 8);
    bytes("history", history, 92);
    uint32_t undone = unit_session_undo(&s, &b), again = unit_session_undo(&s, &b);
    printf("undo: %u %u, past %u future %u\n", (unsigned)undone, (unsigned)again, (unsigned)s.past, (unsigned)s.future);
    undone = unit_session_redo(&s, &b), again = unit_session_redo(&s, &b);
    printf("redo: %u %u, past %u future %u\n", (unsigned)undone, (unsigned)again, (unsigned)s.past, (unsigned)s.future);
    uint32_t later = unit_session_retime(&s, &b, 41);
    printf("retime: %u, time %d\n", (unsigned)later, s.time);
    runs(&s, &b);
    printf("take: %u\n", (unsigned)unit_session_take(&s, &b, NULL, 0));
    printf("pool: %u\n", (unsigned)unit_session_pool(&s, &b, NULL, 0, NULL, 0));
}

/* The kept counts of a session and the class by them, from the call and from the one over a pointer. */
static void kept(const char *what, const unit_session *s) {
    unit_class of_value = unit_kept_class(*s), of_pointer = unit_session_kept_class(s);
    printf("%s: kept %u %u %u %u, class %u %u, %u %u\n", what, (unsigned)s->kept.counted, (unsigned)s->kept.scene,
           (unsigned)s->kept.m2, (unsigned)s->kept.m1, (unsigned)of_value.number, (unsigned)of_value.value,
           (unsigned)of_pointer.number, (unsigned)of_pointer.value);
}

/* The four kept counts, told apart; then the kept class of sessions that no call left so, one value changed in turn. */
static void counts(void) {
    const unit_shape shape = {0, 8, 8, 1, 32, 24, 0, 0, 4, 3, 0};
    const unit_limits limits = {50, 255, 510, 765, 1020};
    uint8_t backward[96], forward[96], averages[12], map[12], history[28];
    int32_t grid[31];
    uint16_t xs[12], ys[12];
    unit_buffers b = {backward, 96, forward, 96, table, sizeof table, grid, 31, xs, 12, ys, 12, averages, 12, map, 12, history, 28};
    unit_session s;
    unit_session_open(&s, &b, shape, UNIT_FORWARD, limits, 256);
    kept("open", &s);
    /* With an average of 1: four blocks that reach none of the three limits, three at m1, two at m2, one at scene. */
    static const uint8_t sads[10] = {1, 1, 1, 1, 2, 2, 2, 3, 3, 4};
    for (uint32_t block = 0; block < 10; block++)
        unit_session_put(&s, &b, UNIT_FORWARD, block, 0, 0, sads[block], 40, block);
    kept("puts", &s);
    unit_session_put(&s, &b, UNIT_BACKWARD, 9, 0, 0, 0, 20, 10); /* block 9 has an average of 255 by that */
    kept("hidden put", &s);
    unit_session_undo(&s, &b);
    kept("undo", &s);

    uint32_t *each[4] = {&s.kept.counted, &s.kept.scene, &s.kept.m2, &s.kept.m1};
    static const uint32_t other[4] = {6, 5, 4, 1};
    for (int k = 0; k < 4; k++) {
        uint32_t was = *each[k];
        *each[k] = other[k], kept("another", &s);
        *each[k] = 12, kept("all blocks", &s);
        *each[k] = 13, kept("one more", &s);
        *each[k] = was;
    }
    unit_session forged = s;
    forged.kept.m1 = UINT32_MAX, kept("a count", &forged);
    forged.time = UNIT_TIME_MOST + 1, kept("time", &forged);
    forged.side = 3, kept("side", &forged);
    forged.shape.pel = 0, kept("shape", &forged);

    /* Counts that do not fit the vectors pass 0, and come back; the average lent is wrong, and not read. */
    memset(&s.kept, 0, sizeof s.kept);
    averages[9] = 255;
    unit_session_put(&s, &b, UNIT_FORWARD, 9, 0, 0, 0, 40, 11);
    kept("below 0", &s);
    unit_session_undo(&s, &b);
    kept("back", &s);
}

/* What a session call answers and leaves in each buffer that calls write. */
static void left(const char *what, uint32_t number, const unit_session *s, const unit_buffers *b) {
    printf("%s: %u, time %d past %u future %u kept %u %u %u %u, ", what, (unsigned)number, s->time, (unsigned)s->past,
           (unsigned)s->future, (unsigned)s->kept.counted, (unsigned)s->kept.scene, (unsigned)s->kept.m2, (unsigned)s->kept.m1);
    printf("planes %d %d, %d %d, cells %d %d, trash %d, averages %d %d, map %d %d\n", b->xs[0], b->xs[1], b->ys[0], b->ys[1],
           b->grid[5], b->grid[6], b->grid[12], b->averages[0], b->averages[1], b->map[0], b->map[1]);
    bytes("  backward", b->backward, 16);
    bytes("  forward", b->forward, 16);
    bytes("  history", b->history, 28);
}

/* The numbers of the calls over a struct of buffers, one of the nine too short in turn. */
static void one_short(unit_session s, unit_buffers b, unit_limits limits) {
    size_t *lengths[9] = {&b.backward_len, &b.forward_len, &b.table_len, &b.grid_len, &b.xs_len,
                          &b.ys_len, &b.averages_len, &b.map_len, &b.history_len};
    uint8_t mask[2];
    for (int k = 0; k < 9; k++) {
        --*lengths[k];
        uint8_t short_by[10] = {
            (uint8_t)unit_session_open(&s, &b, two, UNIT_BACKWARD, limits, 256),
            (uint8_t)unit_session_take(&s, &b, payload, sizeof payload),
            (uint8_t)unit_session_pool(&s, &b, payload, sizeof payload, payload, sizeof payload),
            (uint8_t)unit_session_put(&s, &b, UNIT_BACKWARD, 0, 9, -7, 17, 20, 0x12345678),
            (uint8_t)unit_session_undo(&s, &b),
            (uint8_t)unit_session_redo(&s, &b),
            (uint8_t)unit_session_retime(&s, &b, 128),
            (uint8_t)unit_session_cover_mask(&s, &b, 100, 1.0, mask, 2),
            (uint8_t)unit_session_sad_mask(&s, &b, 100, 0.5, mask, 2),
            (uint8_t)unit_session_quality(&s, &b).number,
        };
        bytes("one short", short_by, 10);
        ++*lengths[k];
    }
}

/* The payload pooled with another, whose sads are smaller, equal, greater and smaller. Lengths that are too short come
 * first, one or both, which leave all as it was; last the two payloads in the other order. */
static void pools(unit_session *s, const unit_buffers *b) {
    uint8_t other[sizeof payload], backward[16], forward[16];
    unit_write_entry(backward, 16, 0, 11, 12, 7, 50), unit_write_entry(backward, 16, 1, 13, 14, 16, 60);
    unit_write_entry(forward, 16, 0, 15, 16, 1, 70), unit_write_entry(forward, 16, 1, 17, 18, 6, 80);
    unit_write_payload(other, sizeof other, two, backward, 16, forward, 16);
    table[80] = 4, table[100] = 1, table[140] = 2;
    unit_session_put(s, b, UNIT_FORWARD, 1, -1, -2, 3, 4, 5);
    const size_t all = sizeof payload, lengths[4][2] = {{all - 1, all}, {all, all - 1}, {all - 1, 11}, {11, all - 1}};
    for (int k = 0; k < 4; k++) {
        uint32_t refused = unit_session_pool(s, b, payload, lengths[k][0], other, lengths[k][1]);
        printf("%zu and %zu bytes, ", lengths[k][0], lengths[k][1]);
        left("pool", refused, s, b);
    }
    uint32_t number = unit_session_pool(s, b, payload, all, other, all);
    left("pool", number, s, b);
    number = unit_session_pool(s, b, other, all, payload, all);
    left("pool, the other first", number, s, b);
}

/* Each call over a struct of buffers; then each with one buffer too short; then pools. */
static void buffers(void) {
    unit_limits limits = {100, 2000, 2100, 4000, 5000};
    uint8_t backward[16], forward[16], averages[2], map[2], mask[2], history[28];
    uint16_t xs[2], ys[2];
    int32_t grid[13];
    unit_buffers b = {backward, 16, forward, 16, table, sizeof table, grid, 13, xs, 2, ys, 2, averages, 2, map, 2, history, 28};
    unit_session s;
    memset(history, 9, sizeof history);
    table[0] = 3, table[50] = 2;
    uint32_t number = unit_session_open(&s, &b, two, UNIT_BACKWARD, limits, 256);
    left("open", number, &s, &b);
    number = unit_session_take(&s, &b, payload, sizeof payload);
    left("take", number, &s, &b);
    number = unit_session_put(&s, &b, UNIT_BACKWARD, 0, 9, -7, 17, 20, 0x12345678);
    left("put", number, &s, &b);
    number = unit_session_undo(&s, &b);
    left("undo", number, &s, &b);
    number = unit_session_redo(&s, &b);
    left("redo", number, &s, &b);
    number = unit_session_retime(&s, &b, 128);
    left("retime", number, &s, &b);
    kept("kept_class", &s);
    number = unit_session_cover_mask(&s, &b, 100, 1.0, mask, 2);
    printf("cover_mask: %u, ", (unsigned)number);
    bytes("mask", mask, 2);
    number = unit_session_sad_mask(&s, &b, 100, 0.5, mask, 2);
    printf("sad_mask: %u, ", (unsigned)number);
    bytes("mask", mask, 2);
    unit_class judged = unit_session_quality(&s, &b);
    printf("quality: %u class %u\n", (unsigned)judged.number, (unsigned)judged.value);
    one_short(s, b, limits);
    number = unit_session_take(&s, &b, payload, sizeof payload - 1);
    left("take without its last byte", number, &s, &b);
    pools(&s, &b);
}

int main(void) {
    fill();
    record();
    field();
    session();
    counts();
    buffers();
    for (uint32_t number = 0; number <= 13; number++) printf("%u: %s\n", (unsigned)number, unit_text(number));
    return 0;
}
