// The headers in C++: an export is called by its C name, one that knows no session and two of the session.
#include "unit_bytes.h"
#include "unit_session.h"
#include <cstdio>

int main() {
    unit_shape shape = unit_shape();
    shape.block_w = shape.block_h = 8;
    shape.pel = 1;
    shape.width = 24;
    shape.height = 16;
    shape.grid_w = 3;
    shape.grid_h = 2;
    const unit_sizes_answer least = unit_sizes(shape);
    // No buffer is lent, so that the open is refused, and the session keeps its shape of zeros.
    const unit_buffers none = unit_buffers();
    unit_session session = unit_session();
    const uint32_t number = unit_session_open(&session, &none, shape, UNIT_BACKWARD, unit_limits(), UNIT_TIME_WHOLE);
    const unit_class kept = unit_session_kept_class(&session);
    std::printf("%zu bytes to a set, %zu to a payload, open %u, kept class %u\n", least.backward,
                unit_payload_len(shape), static_cast<unsigned>(number), static_cast<unsigned>(kept.number));
}
