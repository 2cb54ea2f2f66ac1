/*
 * unit_session.h: the calls of a touch-up session over a pointer to it and one struct of its buffers.
 *
 * A convenience beside unit.h, which is the agreement. It is plain C over the proved calls and not proved itself;
 * examples/c runs each function. A function makes one call of unit.h and answers what that call answers. What it
 * decides beside that is said of it below: which session it stores, which of the session's values and buffers it hands
 * on.
 *
 * The caller owes what unit.h says. A pointer to a session or to its buffers has no count: it points to one struct,
 * and the pointers in a unit_buffers are valid for the counts beside them.
 */
#ifndef UNIT_SESSION_H
#define UNIT_SESSION_H

#include "unit.h"

#ifdef __cplusplus
extern "C" {
#endif

/* The nine buffers of a session, in the order in which its calls are lent them. */
typedef struct unit_buffers {
    uint8_t *backward;
    size_t backward_len;
    uint8_t *forward;
    size_t forward_len;
    const uint8_t *table;
    size_t table_len;
    int32_t *grid;
    size_t grid_len;
    uint16_t *xs;
    size_t xs_len;
    uint16_t *ys;
    size_t ys_len;
    uint8_t *averages;
    size_t averages_len;
    uint8_t *map;
    size_t map_len;
    uint8_t *history;
    size_t history_len;
} unit_buffers;

/* The same as arguments; not for use outside this header. */
#define UNIT_NINE_(b)                                                                                           \
    (b)->backward, (b)->backward_len, (b)->forward, (b)->forward_len, (b)->table, (b)->table_len, (b)->grid,    \
        (b)->grid_len, (b)->xs, (b)->xs_len, (b)->ys, (b)->ys_len, (b)->averages, (b)->averages_len, (b)->map,  \
        (b)->map_len, (b)->history, (b)->history_len

/* ---- The seven calls of a session -------------------------------------------------------------------------------- */

/* unit_open. The session is stored where the call is accepted; refused, the caller's session stays as it was. */
static inline uint32_t unit_session_open(unit_session *session, const unit_buffers *b, unit_shape shape, uint32_t side,
                                         unit_limits limits, int32_t time) {
    unit_answer answer = unit_open(shape, side, limits, time, UNIT_NINE_(b));
    if (answer.number == UNIT_ACCEPTED) *session = answer.session;
    return answer.number;
}

/* Stores the session that a call answered, whatever its number; not for use outside this header. */
static inline uint32_t unit_session_stored_(unit_session *session, unit_answer answer) {
    *session = answer.session;
    return answer.number;
}

/* unit_take, unit_pool, unit_put, unit_undo, unit_redo and unit_retime. The session answered is stored, refused or not:
 * refused it is the one given, except by unit_take, though not unit_pool, with 6 and flag bit 0 set (no past, no
 * future, kept counts made afresh). */

static inline uint32_t unit_session_take(unit_session *session, const unit_buffers *b, const uint8_t *payload,
                                         size_t payload_len) {
    return unit_session_stored_(session, unit_take(*session, payload, payload_len, UNIT_NINE_(b)));
}

static inline uint32_t unit_session_pool(unit_session *session, const unit_buffers *b, const uint8_t *first,
                                         size_t first_len, const uint8_t *second, size_t second_len) {
    return unit_session_stored_(session, unit_pool(*session, first, first_len, second, second_len, UNIT_NINE_(b)));
}

/* Of one gesture all puts carry one number. A host may keep it beside the session and count it up as a gesture begins:
 * gesture++, then as many puts as the gesture makes; unit_session_undo takes all of them back. */
static inline uint32_t unit_session_put(unit_session *session, const unit_buffers *b, uint32_t side, uint32_t block,
                                        int16_t x, int16_t y, int32_t sad, uint8_t luma, uint32_t gesture) {
    return unit_session_stored_(session, unit_put(*session, side, block, x, y, sad, luma, gesture, UNIT_NINE_(b)));
}

static inline uint32_t unit_session_undo(unit_session *session, const unit_buffers *b) {
    return unit_session_stored_(session, unit_undo(*session, UNIT_NINE_(b)));
}

static inline uint32_t unit_session_redo(unit_session *session, const unit_buffers *b) {
    return unit_session_stored_(session, unit_redo(*session, UNIT_NINE_(b)));
}

static inline uint32_t unit_session_retime(unit_session *session, const unit_buffers *b, int32_t time) {
    return unit_session_stored_(session, unit_retime(*session, time, UNIT_NINE_(b)));
}

/* ---- Masks and class of a session -------------------------------------------------------------------------------- */

/* unit_cover_mask of the shown side at the session's time. The session's grid is the scratch and is written: it is
 * filled with the grid of the vectors, which it holds already where the buffers are as the last call left them. */
static inline uint32_t unit_session_cover_mask(const unit_session *session, const unit_buffers *b, int32_t cover,
                                               double sad_scale, uint8_t *mask, size_t mask_len) {
    return unit_cover_mask(session->shape, session->side, b->backward, b->backward_len, b->forward, b->forward_len,
                           cover, sad_scale, session->time, b->grid, b->grid_len, mask, mask_len);
}

/* unit_sad_mask of the shown side. */
static inline uint32_t unit_session_sad_mask(const unit_session *session, const unit_buffers *b, int32_t cover,
                                             double sad_scale, uint8_t *mask, size_t mask_len) {
    return unit_sad_mask(session->shape, session->side, b->backward, b->backward_len, b->forward, b->forward_len,
                         cover, sad_scale, mask, mask_len);
}

/* unit_quality of the shown side, by the session's limits and its averages. */
static inline unit_class unit_session_quality(const unit_session *session, const unit_buffers *b) {
    return unit_quality(session->shape, session->side, session->limits, b->backward, b->backward_len, b->forward,
                        b->forward_len, b->averages, b->averages_len);
}

/* unit_kept_class: the same class where the session and its buffers are as the last call left them, by the kept counts
 * and without a walk over the blocks. No buffer is read. */
static inline unit_class unit_session_kept_class(const unit_session *session) {
    return unit_kept_class(*session);
}

#undef UNIT_NINE_

#ifdef __cplusplus
}
#endif

#endif
