//! What bounds each call: the last part that is printed of docs/SPEED.md.

/// What the machine code of each call waits for. What was measured apart from the tables stands in the part by hand, which no run prints.
pub const BOUNDS: &str = "\
## What bounds each call

- update: the bytes of the payload, copied; the Rust takes each entry apart.
- avg_luma: two loads, a lookup and a store for each block.
- quality_map: a signed 32-bit division for each block, then tests of drawn scores.
- quality: the same division. The counts are products of 0 and 1, without tests.
- kept class: the checks of what the session carries, a product and a division. No buffer is read, so that the time is the same for every n.
- pack: the tests of two clamps and two stores for each cell, as in the Rust.
- sad_mask: a conversion, two products and an f64 division for each cell that is not looked up. The table of levels ends at the
  first level of 255, or at 512 of them. The Rust also takes a power for each cell.
- cover_mask, pel a power of two and steps up to 128: for each block two products and two reciprocal products in SSE2 lanes, then four cells read, added to and written, in an order that
  the vectors give. Baseline x86-64 has no product of four 32-bit lanes, so that each takes two of two lanes; the Rust with the machine's own instructions has lanes of eight or
  sixteen.
- cover_mask otherwise: four signed divisions for each block.
- take, open, retime: the calls above, one after the other. Of take and open the map and the kept counts come from one walk, a division for each block.
- pool: the rebuild of a take, once. Before it, for each block of each side, an entry of either payload is read, their sads are compared and one of the two is written: three entries are moved where a take moves two.
- put: at D 4096 the 114,688 bytes of slots that move down by one; at D 256 the patch, which has two divisions, for the block's score before and after.
- undo, redo: the patch, as often as the run has steps; before it the run's gestures and the next one are read, and its slots checked. The other slots and D do not matter.
";
