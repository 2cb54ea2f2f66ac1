/*
 * unit.h: vectors, coverage grid, maps, masks and touch-up session of a linked picture unit.
 *
 * The manual of libunit.a, which `rt lib --cpu x86-64` writes in crates/unit/out. C99 or C++, x86-64 Linux; of the C
 * library it needs memmove and memset, and nothing else.
 *
 * Every exported call is proved: on any arguments and any buffers it ends, stays within the buffers that it was lent,
 * answers by the first check that fails and leaves in memory what is written below. Nothing is to be checked first.
 * The contract of unit_NAME is in that function's head in crates/unit/src, in terms of the definitions in
 * crates/.../specs. unit_text, the one function that this header defines, is plain C and not proved. Nor are the two
 * headers beside it, for convenience and no part of the agreement: unit_session.h has the session's calls over a
 * pointer and a struct of buffers, unit_bytes.h writes entries, records and payloads.
 *
 * Every number that stands in bytes, of a record, a payload, a set or the history, is little-endian.
 *
 * What the caller owes, and no proof can see:
 *   - a pointer is valid for as many elements as are counted beside it, and aligned for them; with a count of 0 it
 *     may be null. It is writable where it is not const;
 *   - the buffers of one call do not overlap where one of them is written. Those that are only read may overlap each
 *     other, or be the same, such as the two payloads of unit_pool;
 *   - nothing else writes or reads a written buffer while the call runs;
 *   - while a mask is made the float environment is the usual one: rounding to nearest, denormals neither flushed to
 *     zero nor taken as zero. Where they are taken as zero a SAD scale of -5e-324 is accepted; with another rounding
 *     some mask bytes differ. No other call computes with doubles;
 *   - the stack has room. As measured on marked stacks, unit_cover_mask takes less than 76,000 bytes of it, for a table
 *     of 65,537 levels and two rows of sums, accepted or not; unit_sad_mask takes less than 700 and every other call
 *     less than 3,000. The arguments, and what memmove and memset take, come on top. A frame's pages are touched in
 *     turn, so that a stack that is too small, and has a guard page, ends there.
 *
 * The library allocates nothing, keeps nothing between calls, has no global state and calls nothing but memmove and
 * memset: any number of threads may use it, each with its own buffers. A session is a plain struct; copy it, and its
 * buffers, as you like.
 */
#ifndef UNIT_H
#define UNIT_H

#include <stddef.h>
#include <stdint.h>

#ifdef __cplusplus
extern "C" {
#endif

/* ---- Version ------------------------------------------------------------------------------------------------------
 *
 * Header and archive agree in major and minor: a struct or a signature that changes raises the minor, any other change
 * the patch. The name of unit_abi_0_3 has major and minor, and each file that includes this header refers to it: a
 * program does not link with an archive of another version. A file that makes no call, and is linked without the
 * archive, defines UNIT_NO_LINK_GUARD first. */
#define UNIT_VERSION_MAJOR 0
#define UNIT_VERSION_MINOR 3
#define UNIT_VERSION_PATCH 2
#define UNIT_VERSION (65536u * UNIT_VERSION_MAJOR + 256u * UNIT_VERSION_MINOR + UNIT_VERSION_PATCH)

/* The archive's version, made as UNIT_VERSION is. */
uint32_t unit_version(void);

/* The same number, by the name that the guard below refers to. */
uint32_t unit_abi_0_3(void);

#ifndef UNIT_NO_LINK_GUARD
#if defined(__has_attribute)
#if __has_attribute(retain)
#define UNIT_RETAINED_ __attribute__((used, retain)) /* by the compiler, and by a linker that leaves sections out */
#endif
#endif
#if !defined(UNIT_RETAINED_) && defined(__GNUC__)
#define UNIT_RETAINED_ __attribute__((used))
#endif
#ifndef UNIT_RETAINED_
#define UNIT_RETAINED_
#endif
UNIT_RETAINED_ static uint32_t (*const unit_link_guard)(void) = unit_abi_0_3;
#undef UNIT_RETAINED_
#endif

/* ---- Numbers ------------------------------------------------------------------------------------------------------
 *
 * Every call answers 0, or the number of the first check that fails; the version's two and unit_shape_of refuse nothing
 * and answer none. Checks run in the order in which a call lists them, and each list is a part of 1, 2, 3, 8, 7, 12, 9
 * or 10, 11, 4, 5, 6; unit_pool has 4, 5, 6 of one payload and behind them those of another.
 *
 * A refused call writes nothing, except unit_update and unit_take by UNIT_BAD_FORWARD with flag bit 0 set, as each of
 * them says.
 */
enum unit_number {
    UNIT_ACCEPTED = 0,
    UNIT_BAD_RECORD = 1,    /* the record is shorter than 60 bytes or does not begin with 160 */
    UNIT_BAD_SHAPE = 2,     /* the shape is beyond its limits */
    UNIT_SHORT_BUFFER = 3,  /* a lent buffer is too short */
    UNIT_BAD_HEAD = 4,      /* the payload's head is missing or wrong */
    UNIT_BAD_BACKWARD = 5,  /* the payload's backward half is missing or wrong */
    UNIT_BAD_FORWARD = 6,   /* the payload's forward half is missing or wrong */
    UNIT_OUT_OF_RANGE = 7,  /* a time, cover, SAD scale or sad is outside its range */
    UNIT_BAD_PLACE = 8,     /* a side is not 1 or 2, or a block is not one of the grid */
    UNIT_NO_PAST = 9,       /* there is no step to undo */
    UNIT_NO_FUTURE = 10,    /* there is no step to redo */
    UNIT_BAD_STEPS = 11,    /* the step counts, or the side or block of a slot of the run, do not fit */
    UNIT_BAD_COUNTS = 12    /* a kept count is above the number of blocks */
};

/* The text of a number, for a person; never null. Plain C, not proved. */
static inline const char *unit_text(uint32_t number) {
    switch (number) {
    case UNIT_ACCEPTED: return "accepted";
    case UNIT_BAD_RECORD: return "the record is short or does not begin with 160";
    case UNIT_BAD_SHAPE: return "the shape is beyond its limits";
    case UNIT_SHORT_BUFFER: return "a buffer is too short";
    case UNIT_BAD_HEAD: return "the payload's head is missing or wrong";
    case UNIT_BAD_BACKWARD: return "the payload's backward half is missing or wrong";
    case UNIT_BAD_FORWARD: return "the payload's forward half is missing or wrong";
    case UNIT_OUT_OF_RANGE: return "a time, cover, SAD scale or sad is outside its range";
    case UNIT_BAD_PLACE: return "the side is not 1 or 2, or the block is not in the grid";
    case UNIT_NO_PAST: return "there is no step to undo";
    case UNIT_NO_FUTURE: return "there is no step to redo";
    case UNIT_BAD_STEPS: return "the step counts or a slot of the run do not fit";
    case UNIT_BAD_COUNTS: return "a kept count is above the number of blocks";
    default: return "not a number of this library";
    }
}

/* A side, in every call. */
enum unit_side { UNIT_BACKWARD = 1, UNIT_FORWARD = 2 };

/* ---- Constants --------------------------------------------------------------------------------------------------- */

/* Lengths and places in bytes, and what stands there. */
enum {
    UNIT_RECORD_LEN = 60,       /* a record has at least so many bytes */
    UNIT_RECORD_START = 160,    /* a record's first i32; a payload's second */
    UNIT_PAYLOAD_START = 16,    /* a payload's first i32 */
    UNIT_PAYLOAD_HEAD = 12,     /* the bytes of a payload's three first i32 */
    UNIT_PAYLOAD_BACKWARD = 64, /* the place of a payload's backward half; the forward one is at 68 + 8n */
    UNIT_ENTRY_SIZE = 8,        /* an entry of a set */
    UNIT_TABLE_LEN = 511,       /* the luma table: one byte for each sum of two lumas */
    UNIT_SLOT_SIZE = 28,        /* a step of the history */
    UNIT_SLOTS_MOST = 4096      /* D = min(4096, history bytes / 28) slots are used */
};

/* The ends of ranges. Beyond them a shape's values are refused by 2, a time, cover, sad or SAD scale by 7. */
enum {
    UNIT_BLOCK_MOST = 256,     /* a block's sides, from 1 */
    UNIT_PEL_MOST = 64,        /* from 1 */
    UNIT_PICTURE_MOST = 65535, /* a picture's sides, from 1 */
    UNIT_GRID_MOST = 1024,     /* a grid's sides, from 1 */
    UNIT_TIME_LEAST = -65535,
    UNIT_TIME_MOST = 65535,
    UNIT_COVER_MOST = 1000,    /* from 0 */
    UNIT_SAD_MOST = 16777215   /* from 0 */
};
#define UNIT_SAD_SCALE_MOST 65536.0 /* from 0.0 */

/* Single values. */
enum {
    UNIT_FLAG_BACKWARD = 1,   /* of a shape's flags: payloads have a backward half */
    UNIT_FLAG_FORWARD = 2,    /* the same: a forward half */
    UNIT_TIME_WHOLE = 256,    /* the time at which a vector moves by its whole length */
    UNIT_COVER_WHOLE = 100,   /* a cover of 1.0 */
    UNIT_PLANE_ZERO = 1024,   /* a component of 0 in a plane */
    UNIT_MAP_BELOW_ZERO = 255 /* a map byte: the score is less than the limit zero */
};

/* ---- Shapes and sizes -------------------------------------------------------------------------------------------- */

/* The shape of a vector field; a value outside the range beside it is refused by 2.
 *
 * Below, n is the count of blocks, grid_w x grid_h; block 0 is the upper left one, and they count along each row. A
 * step is a block's side less the overlap on it. Planes and masks are W x H: W is grid_w, and one column more where
 * the blocks end before the picture's right edge does, at step * grid_w + overlap < width; H is the same of rows. */
typedef struct unit_shape {
    int32_t flags;                /* any; bit 0: payloads have a backward half, bit 1: a forward half */
    int32_t block_w, block_h;     /* 1 .. 256 */
    int32_t pel;                  /* 1 .. 64 */
    int32_t width, height;        /* of the picture: 1 .. 65,535 */
    int32_t overlap_x, overlap_y; /* 0 .. block_w - 1, 0 .. block_h - 1 */
    int32_t grid_w, grid_h;       /* in blocks: 1 .. 1,024 */
    int32_t selector;             /* any; 0: planes keep vectors within the picture */
} unit_shape;

typedef struct unit_extent {
    int32_t width, height;
} unit_extent;

/* The answer of unit_vector_data: its number, and the record's values, all 0 beside a refusal. */
typedef struct unit_record {
    uint32_t number;
    int32_t flags;
    unit_extent block, shape, grid;
    int32_t marker; /* the pel */
    int32_t selector;
    int32_t delta;
    int32_t overlap_x, overlap_y;
} unit_record;

/* The record that stands at the start of the bytes.
 * Checks: 1 (the bytes are fewer than 60, or the i32 at 0 is not 160). Its values are not judged here. */
unit_record unit_vector_data(const uint8_t *data, size_t data_len);

/* The shape that a record's values give, whatever its number. It refuses nothing: the shape of a refused record is all
 * 0, which every call refuses by 2. */
unit_shape unit_shape_of(unit_record record);

/* The answer of unit_sizes: its number, the least length of each buffer, in elements, and the sides of planes and
 * masks, all 0 beside a refusal. The least history holds one step; each further one, up to 4096, takes as much. The
 * scratch of unit_cover_mask is as long as the grid. */
typedef struct unit_sizes_answer {
    uint32_t number;
    size_t backward; /* 8 n bytes */
    size_t forward;  /* 8 n bytes */
    size_t table;    /* 511 bytes */
    size_t grid;     /* (W + 2) x (H + 2) + 1 cells, the last of them the trash cell */
    size_t xs;       /* W x H */
    size_t ys;       /* W x H */
    size_t averages; /* n */
    size_t map;      /* n */
    size_t history;  /* 28 bytes */
    size_t mask;     /* W x H */
    size_t packed_width, packed_height; /* W, H */
} unit_sizes_answer;

/* The least length of each buffer that calls of this shape are lent, and the sides of its planes and masks. Whatever is
 * longer keeps its surplus untouched.
 * Checks: 2. */
unit_sizes_answer unit_sizes(unit_shape shape);

/* ---- Calls over two vector sets -----------------------------------------------------------------------------------
 *
 * A set is n entries of 8 bytes: y (i16), x (i16), sad (24 bits), luma (8 bits).
 *
 * A grid holds how much of the moved blocks lies over each cell. The block at column bx moves across by
 * tx = time * x / (256 * pel), rounded towards 0, into column cx = bx + floor(tx / step). There it is
 * rx = step * (cx - bx + 1) - tx wide, and in column cx + 1 the rest, lx = block_w - rx; likewise down, with y: cy, ry
 * and ly. From zeros, each block adds rx * ry to cell (cx, cy), lx * ry to (cx + 1, cy), rx * ly to (cx, cy + 1) and
 * lx * ly to (cx + 1, cy + 1), in signed 32-bit numbers that wrap. Cell (x, y) of the W x H is number
 * (y + 1) * (W + 2) + x + 1; what falls on none of them goes to the trash cell. */

/* Renews both sets by a payload. It begins with three i32: 16, 160 and the shape's flags. By flag bit 0 it has a
 * backward half, the i32 2n+1 at byte 64 and the n entries at 68; by bit 1 a forward half, the same i32 at 68+8n and
 * the n entries behind it, at that place whether or not there is a backward half. Other bytes are ignored.
 * Checks: 2, 3 (both sets), 4, 5, 6.
 * After: each flagged set is new, an unflagged one stays. By 6, where flag bit 0 is set, the backward set is new.
 */
uint32_t unit_update(unit_shape shape, const uint8_t *payload, size_t payload_len, uint8_t *backward,
                     size_t backward_len, uint8_t *forward, size_t forward_len);

/* The average luma of each block: table[backward luma + forward luma].
 * Checks: 2, 3 (both sets, table, averages).
 * After: the first n averages are new. */
uint32_t unit_avg_luma(unit_shape shape, const uint8_t *backward, size_t backward_len, const uint8_t *forward,
                       size_t forward_len, const uint8_t *table, size_t table_len, uint8_t *averages,
                       size_t averages_len);

/* The two planes of a side's vectors, row by row; past the grid the last column and row repeat. Both hold 1024 where a
 * component is outside -1023 to 1023, else each its component + 1024. With selector 0 that one is first kept within the
 * picture: with p = the cell's column * step and r = width - p - block_w, an x component v becomes -p where v + p < 0,
 * else the greater of r and 0 where v > r; a y component likewise, of row, height and block_h.
 * Checks: 2, 3 (both sets, both planes), 8.
 * After: the first W x H of each plane are new. */
uint32_t unit_pack(unit_shape shape, uint32_t side, const uint8_t *backward, size_t backward_len,
                   const uint8_t *forward, size_t forward_len, uint16_t *xs, size_t xs_len, uint16_t *ys,
                   size_t ys_len);

/* The limits that scores are compared with, any each; blocks is a share in hundredths. A score is sad * 255, wrapped
 * to a signed 32-bit number, divided by the average, or by 1 where that is 0, and rounded towards 0. */
typedef struct unit_limits {
    int32_t blocks, zero, m1, m2, scene;
} unit_limits;

/* The map of a side's scores at the averages lent. A byte is 255 where the score is less than the limit zero;
 * otherwise it says which of m1 (0), m2 (1) and scene (2) is the first that exceeds the score, 3 where none does.
 * Checks: 2, 3 (both sets, averages, map), 8.
 * After: the first n bytes of the map are new. */
uint32_t unit_quality_map(unit_shape shape, uint32_t side, unit_limits limits, const uint8_t *backward,
                          size_t backward_len, const uint8_t *forward, size_t forward_len, const uint8_t *averages,
                          size_t averages_len, uint8_t *map, size_t map_len);

/* The answer of unit_quality and of unit_kept_class: its number, and the class, 0 to 3; 0 beside a refusal. */
typedef struct unit_class {
    uint32_t number;
    uint32_t value;
} unit_class;

/* The class of a side's scores at the averages lent. Blocks count whose score is at least the limit zero. Let r be the
 * limit blocks * their count, wrapped to a signed 32-bit number, divided by 100 and rounded towards 0. The class is 3
 * where at least r of them reach the limit scene, else 2 where at least r reach scene or m2, else 1 where at least r
 * reach scene, m2 or m1, else 0; a score reaches a limit that it is equal to or above. Where no block counts it is 3.
 * Checks: 2, 3 (both sets, averages), 8. It writes nothing. */
unit_class unit_quality(unit_shape shape, uint32_t side, unit_limits limits, const uint8_t *backward,
                        size_t backward_len, const uint8_t *forward, size_t forward_len, const uint8_t *averages,
                        size_t averages_len);

/* The cover mask of a side's vectors at a time (-65,535 to 65,535; 256 is a whole vector) with a cover of 0 to 1,000
 * hundredths. The SAD scale, 0.0 to 65536.0, is judged and not used.
 * A byte is 0 where the moved blocks cover the picture, and rises the less they do. Let s be the sum of a cell and its
 * eight neighbours, wrapped to a signed 32-bit number, area = block_w * block_h, and c = s / 8, rounded down and at
 * most area. The byte is (area - c) * (cover / 100.0) * 256.0 / area, from left to right in doubles, rounded down and
 * at most 255.
 * Checks: 2, 3 (both sets, scratch as a grid, mask), 8, 7 (time, cover, SAD scale; a NaN is refused).
 * After: the scratch holds the grid, the first W x H bytes of the mask are new. */
uint32_t unit_cover_mask(unit_shape shape, uint32_t side, const uint8_t *backward, size_t backward_len,
                         const uint8_t *forward, size_t forward_len, int32_t cover, double sad_scale, int32_t time,
                         int32_t *scratch, size_t scratch_len, uint8_t *mask, size_t mask_len);

/* The SAD mask of a side's vectors with a SAD scale of 0.0 to 65536.0. The cover, 0 to 1,000, is judged and not used.
 * A byte rises with the sad: it is (4 * sad) * sad_scale / area * 255.0, from left to right in doubles, rounded down
 * and at most 255. Past the grid the last column and row repeat.
 * Checks: 2, 3 (both sets, mask), 8, 7 (cover, SAD scale; a NaN is refused).
 * After: the first W x H bytes of the mask are new. */
uint32_t unit_sad_mask(unit_shape shape, uint32_t side, const uint8_t *backward, size_t backward_len,
                       const uint8_t *forward, size_t forward_len, int32_t cover, double sad_scale, uint8_t *mask,
                       size_t mask_len);

/* ---- The touch-up session -----------------------------------------------------------------------------------------
 *
 * A session shows one side. Each of its calls but unit_kept_class, which is lent none, takes the same nine buffers in
 * the same order: the two sets; the luma table, which is only read; grid and planes (xs, ys) of the shown side; the
 * averages; the shown side's map; the history.
 *
 * The history uses D = min(4096, bytes / 28) slots. A slot is one step: its block (u32, at byte 0), its side (u32, 4),
 * the entry that was there (8), the entry that was put (16) and the number of the put's gesture (u32, 24). First stand
 * the past steps, which can be undone, as they were made; behind them the future ones, as redo will bring them back;
 * the slots that are left are zero.
 *
 * A gesture, such as a wheel turn, is puts that follow each other and carry one number, any u32: unit_undo takes all of
 * them back at once, and unit_redo makes all of them again. What belongs together is told by the lists of steps alone:
 * a run is the steps that stand next to each other with one number, as many as there are. For a host that means:
 *   - each gesture is given a number of its own as it begins. A counter that goes up by 1 is enough, and may wrap: a
 *     history holds at most 4096 steps, so that in practice a number comes round again long after its steps are gone;
 *   - where undo and redo are to move by one step, each put is given a number of its own;
 *   - a number that is used again right behind steps that have it joins them, also where they came to be the last by an
 *     undo; used again behind other steps it is a gesture of its own;
 *   - the oldest step drops alone, so that the oldest gesture may be cut short, and one of more than D puts always is:
 *     an undo takes back what is left of it;
 *   - past and future of a session count steps, not gestures. The time of an undo or a redo grows with the steps of its
 *     run, and not with D.
 *
 * Between calls the buffers are the caller's. From an accepted unit_open on, as long as nothing but these calls changes
 * the session or its buffers, grid, planes, averages, map and the kept counts are those of the vectors, whatever was
 * called and whether or not it was refused: unit_kept_class is accepted, and its class is what unit_quality answers of
 * the shown side with the session's limits at these averages. And as many undos as there are runs of past steps are all
 * accepted and leave no past step, and as many redos behind them are all accepted and give back every byte. That is
 * proved of every list of calls. On any other session or buffers each call still does what is said of it below, and
 * nothing else. */

/* What a class is made of, for the shown side: how many blocks count, since their score is at least the limit zero;
 * and how many of those reach the limit scene, how many m2 and not scene, how many m1 and neither of them. */
typedef struct unit_counts {
    uint32_t counted, scene, m2, m1;
} unit_counts;

/* All of it is set by unit_open. */
typedef struct unit_session {
    unit_shape shape;
    uint32_t side; /* the shown side */
    unit_limits limits;
    int32_t time;
    uint32_t past, future; /* how many steps, not gestures, can be undone and redone */
    unit_counts kept;      /* kept from call to call, so that the class needs no walk over the blocks */
} unit_session;

/* The answer of a session call that is lent buffers: its number, and the session after it. Refused, the session is the
 * one given, except by unit_open (all 0) and by unit_take, though not unit_pool, with 6 and flag bit 0 set (no past, no
 * future, the kept counts made afresh). */
typedef struct unit_answer {
    uint32_t number;
    unit_session session;
} unit_answer;

/* Every call below checks the shape (2), all nine buffers where it is lent them (3), the shown side (8) and the time
 * (7): unit_open those that it is given, the others those of the session. A call's own arguments are checked together
 * with the session's of the same number; 12, 9, 10, 11 and 4 to 6 come after. */

/* A new session: both sets zero, no steps, grid, planes, averages, map and D slots filled afresh, the kept counts made
 * afresh from the scores of the shown side, by averages of both sets and the table.
 * Checks: 2, 3, 8, 7. Refused, the session answered is all 0. */
unit_answer unit_open(unit_shape shape, uint32_t side, unit_limits limits, int32_t time, uint8_t *backward,
                      size_t backward_len, uint8_t *forward, size_t forward_len, const uint8_t *table,
                      size_t table_len, int32_t *grid, size_t grid_len, uint16_t *xs, size_t xs_len, uint16_t *ys,
                      size_t ys_len, uint8_t *averages, size_t averages_len, uint8_t *map, size_t map_len,
                      uint8_t *history, size_t history_len);

/* unit_update of both sets; then all is filled afresh, the kept counts too, and there are no steps.
 * Checks: 2, 3, 8, 7, 4, 5, 6. By 6, where flag bit 0 is set, the backward set is new, all is filled afresh and there
 * are no steps either. */
unit_answer unit_take(unit_session session, const uint8_t *payload, size_t payload_len, uint8_t *backward,
                      size_t backward_len, uint8_t *forward, size_t forward_len, const uint8_t *table,
                      size_t table_len, int32_t *grid, size_t grid_len, uint16_t *xs, size_t xs_len, uint16_t *ys,
                      size_t ys_len, uint8_t *averages, size_t averages_len, uint8_t *map, size_t map_len,
                      uint8_t *history, size_t history_len);

/* Two payloads pooled, such as those of two motion estimators, each of them as unit_update reads one. On each flagged
 * side every block gets the entry whose sad is the smaller of the two, the first payload's where the sads are equal.
 * Sads are compared as they stand, 24 bits without a sign, and nothing else of the entries is; the one that is kept is
 * kept whole, all eight bytes, so that no block has the vector of one payload with the sad or luma of the other. An
 * unflagged set stays. Then, as by unit_take, all is filled afresh, the kept counts too, and there are no steps; also
 * where neither flag bit is set, and both sets stay.
 * Checks: 2, 3, 8, 7, then 4, 5, 6 of the first payload, then 4, 5, 6 of the second; the number does not say of which.
 * Refused, unlike unit_take, it writes nothing and the session is the one given, also by 6 of either payload with flag
 * bit 0 set: the vectors, all that was filled from them and the steps stay.
 * The payloads are only read: they may overlap or be the same bytes, but must not overlap a buffer that is
 * written. */
unit_answer unit_pool(unit_session session, const uint8_t *first, size_t first_len, const uint8_t *second,
                      size_t second_len, uint8_t *backward, size_t backward_len, uint8_t *forward,
                      size_t forward_len, const uint8_t *table, size_t table_len, int32_t *grid, size_t grid_len,
                      uint16_t *xs, size_t xs_len, uint16_t *ys, size_t ys_len, uint8_t *averages,
                      size_t averages_len, uint8_t *map, size_t map_len, uint8_t *history, size_t history_len);

/* One entry of one side: a step behind the past ones, with the number of its gesture; the oldest dropped where there
 * are D, no future steps, every slot past the new one zero. The number is any, and no other step is looked at. On the
 * shown side the grid is patched (it loses the four products of the entry that stands there and gains those of the new
 * one) and the block's plane cells are new; on either side its average and its map byte. On either side too each kept
 * count loses what the block's score on the shown side gave it before and gains what it gives after, modulo 2^32; both
 * scores are of the sets as they then are and the table, and the average lent is not read.
 * Checks: 2, 3, 8 (shown side, side, block below n), 7 (time, sad 0 to 16,777,215), 11 (past + future above D). */
unit_answer unit_put(unit_session session, uint32_t side, uint32_t block, int16_t x, int16_t y, int32_t sad,
                     uint8_t luma, uint32_t gesture, uint8_t *backward, size_t backward_len, uint8_t *forward,
                     size_t forward_len, const uint8_t *table, size_t table_len, int32_t *grid, size_t grid_len,
                     uint16_t *xs, size_t xs_len, uint16_t *ys, size_t ys_len, uint8_t *averages,
                     size_t averages_len, uint8_t *map, size_t map_len, uint8_t *history, size_t history_len);

/* The last past step, and with it the past steps right before it that have its gesture: a run. One by one, the last one
 * first, each step's old entry goes back to its block, all patched as by unit_put, the kept counts too. The run's steps
 * become the first future ones, in their order. No slot is written.
 * Checks: 2, 3, 8, 7, 9, 11 (past + future above D), 11 (the side or block of any slot of the run). */
unit_answer unit_undo(unit_session session, uint8_t *backward, size_t backward_len, uint8_t *forward,
                      size_t forward_len, const uint8_t *table, size_t table_len, int32_t *grid, size_t grid_len,
                      uint16_t *xs, size_t xs_len, uint16_t *ys, size_t ys_len, uint8_t *averages,
                      size_t averages_len, uint8_t *map, size_t map_len, const uint8_t *history, size_t history_len);

/* The first future step, and with it the future steps right behind it that have its gesture: a run. One by one, the
 * first one first, each step's new entry goes to its block again, all patched as by unit_put, the kept counts too. The
 * run's steps become the last past ones, in their order. No slot is written.
 * Checks: 2, 3, 8, 7, 10, 11, 11. */
unit_answer unit_redo(unit_session session, uint8_t *backward, size_t backward_len, uint8_t *forward,
                      size_t forward_len, const uint8_t *table, size_t table_len, int32_t *grid, size_t grid_len,
                      uint16_t *xs, size_t xs_len, uint16_t *ys, size_t ys_len, uint8_t *averages,
                      size_t averages_len, uint8_t *map, size_t map_len, const uint8_t *history, size_t history_len);

/* Another time; the grid is filled afresh, and nothing else. The kept counts stay.
 * Checks: 2, 3, 8, 7 (the session's time and the one given). */
unit_answer unit_retime(unit_session session, int32_t time, const uint8_t *backward, size_t backward_len,
                        const uint8_t *forward, size_t forward_len, const uint8_t *table, size_t table_len,
                        int32_t *grid, size_t grid_len, const uint16_t *xs, size_t xs_len, const uint16_t *ys,
                        size_t ys_len, const uint8_t *averages, size_t averages_len, const uint8_t *map,
                        size_t map_len, const uint8_t *history, size_t history_len);

/* The class of the shown side by the session's kept counts; no buffer is read. Let r be the limit blocks * counted,
 * wrapped to a signed 32-bit number, divided by 100 and rounded towards 0. The class is 3 where scene is at least r,
 * else 2 where scene + m2 is, else 1 where scene + m2 + m1 is, else 0.
 * Checks: 2, 8, 7, 12 (one of the four counts is above n). It writes nothing. Whether the counts fit each other or the
 * vectors is not judged, nor are past and future. */
unit_class unit_kept_class(unit_session session);

/* ---- Layout -------------------------------------------------------------------------------------------------------
 *
 * The structs as the archive has them. A compiler of C11 or C++11, or later, holds them to it. */
#if defined(__cplusplus)
#if __cplusplus >= 201103L
#define UNIT_LAID_OUT_(as) static_assert(as, "a struct is not laid out as libunit.a has it")
#endif
#elif defined(__STDC_VERSION__)
#if __STDC_VERSION__ >= 201112L
#define UNIT_LAID_OUT_(as) _Static_assert(as, "a struct is not laid out as libunit.a has it")
#endif
#endif
#ifdef UNIT_LAID_OUT_
UNIT_LAID_OUT_(sizeof(unit_shape) == 44 && sizeof(unit_extent) == 8 && sizeof(unit_record) == 52);
UNIT_LAID_OUT_(sizeof(unit_sizes_answer) == 104 && sizeof(unit_limits) == 20 && sizeof(unit_class) == 8);
UNIT_LAID_OUT_(sizeof(unit_counts) == 16 && sizeof(unit_session) == 96 && sizeof(unit_answer) == 100);
UNIT_LAID_OUT_(offsetof(unit_record, block) == 8 && offsetof(unit_record, marker) == 32);
UNIT_LAID_OUT_(offsetof(unit_sizes_answer, backward) == 8 && offsetof(unit_sizes_answer, mask) == 80);
UNIT_LAID_OUT_(offsetof(unit_sizes_answer, packed_width) == 88);
UNIT_LAID_OUT_(offsetof(unit_sizes_answer, packed_height) == 96);
UNIT_LAID_OUT_(offsetof(unit_session, side) == 44 && offsetof(unit_session, limits) == 48);
UNIT_LAID_OUT_(offsetof(unit_session, time) == 68 && offsetof(unit_session, past) == 72);
UNIT_LAID_OUT_(offsetof(unit_session, future) == 76 && offsetof(unit_session, kept) == 80);
UNIT_LAID_OUT_(offsetof(unit_counts, scene) == 4 && offsetof(unit_counts, m2) == 8 && offsetof(unit_counts, m1) == 12);
UNIT_LAID_OUT_(offsetof(unit_answer, session) == 4);
#undef UNIT_LAID_OUT_
#endif

#ifdef __cplusplus
}
#endif

#endif
