//! Writes the bytes that the library reads: an entry of a set, a record, a payload; and reads an entry. Plain Rust, tested and not
//! proved: `tests/bytes.rs` has the library read back what is written here.

use std::ops::Range;

use crate::constants::{
    ENTRY_SIZE, FLAG_BACKWARD, FLAG_FORWARD, PAYLOAD_BACKWARD, PAYLOAD_HEAD, PAYLOAD_START, RECORD_LEN, RECORD_START,
    SAD_MOST,
};
use crate::error::Error;
use crate::room::room;
use crate::types::{BlockVector, FieldShape, VectorData, VectorShape, sizes};

impl BlockVector {
    /// The entry of a block in a set's bytes, if the set reaches that far.
    pub fn read(set: &[u8], block: usize) -> Option<BlockVector> {
        let bytes: [u8; ENTRY_SIZE] = set.get(place(block)?)?.try_into().ok()?;
        let [y0, y1, x0, x1, s0, s1, s2, luma] = bytes;
        Some(BlockVector {
            x: i16::from_le_bytes([x0, x1]),
            y: i16::from_le_bytes([y0, y1]),
            sad: i32::from_le_bytes([s0, s1, s2, 0]),
            luma,
        })
    }

    /// The bytes of an entry. Refused by [`Error::Range`] where the sad is outside 0 to 16,777,215.
    pub fn bytes(self) -> Result<[u8; ENTRY_SIZE], Error> {
        if !(0..=SAD_MOST).contains(&self.sad) {
            return Err(Error::Range);
        }
        let ([y0, y1], [x0, x1]) = (self.y.to_le_bytes(), self.x.to_le_bytes());
        let [s0, s1, s2, _] = self.sad.to_le_bytes();
        Ok([y0, y1, x0, x1, s0, s1, s2, self.luma])
    }

    /// Gives a block this entry in a set's bytes. Refused by [`Error::Buffer`] where the set ends before it, and as
    /// [`bytes`](BlockVector::bytes) is; then nothing is written.
    pub fn write(self, set: &mut [u8], block: usize) -> Result<(), Error> {
        let entry = place(block).and_then(|place| set.get_mut(place)).ok_or(Error::Buffer)?;
        entry.copy_from_slice(&self.bytes()?);
        Ok(())
    }
}

/// Where a block's entry stands in a set.
fn place(block: usize) -> Option<Range<usize>> {
    let start = block.checked_mul(ENTRY_SIZE)?;
    Some(start..start.checked_add(ENTRY_SIZE)?)
}

impl VectorData {
    /// The record of a shape and a delta: [`FieldShape::from`] gives the shape again.
    pub fn of_shape(s: FieldShape, delta: i32) -> VectorData {
        VectorData {
            flags: s.flags,
            block: VectorShape { width: s.block_w, height: s.block_h },
            shape: VectorShape { width: s.width, height: s.height },
            grid: VectorShape { width: s.grid_w, height: s.grid_h },
            marker: s.pel,
            selector: s.selector,
            delta,
            overlap_x: s.overlap_x,
            overlap_y: s.overlap_y,
        }
    }

    /// The bytes of a record with these values, which are not judged: [`vector_data`](crate::vector_data) gives them again. The two
    /// i32 that no call reads, at 0x14 and 0x18, are 0.
    pub fn bytes(self) -> [u8; RECORD_LEN] {
        let VectorData { flags, block, shape, grid, marker, selector, delta, overlap_x, overlap_y } = self;
        let words = [RECORD_START, flags, block.width, block.height, marker, 0, 0, shape.width, shape.height];
        let more = [overlap_x, overlap_y, grid.width, grid.height, selector, delta];
        let mut bytes = [0; RECORD_LEN];
        for (at, word) in bytes.chunks_exact_mut(4).zip(words.into_iter().chain(more)) {
            at.copy_from_slice(&word.to_le_bytes());
        }
        bytes
    }
}

/// A payload: the head with the shape's flags, and of each set that they ask for its first 8n bytes. A set that they do not ask for is
/// not read. The bytes that no call reads are 0.
///
/// Refused by [`Error::Shape`], and by [`Error::Buffer`] where a set that is asked for is missing or too short.
pub fn payload(shape: FieldShape, backward: Option<&[u8]>, forward: Option<&[u8]>) -> Result<Vec<u8>, Error> {
    let least = sizes(shape)?;
    let backward = asked_for(shape.flags & FLAG_BACKWARD, backward, least.backward)?;
    let forward = asked_for(shape.flags & FLAG_FORWARD, forward, least.forward)?;
    let halves = [(PAYLOAD_BACKWARD, backward), (PAYLOAD_BACKWARD + 4 + least.backward, forward)];
    let ends = halves.iter().filter_map(|(at, set)| Some(at + 4 + set.as_ref()?.len()));
    let mut bytes = room(ends.max().unwrap_or(PAYLOAD_HEAD))?;
    let words = [PAYLOAD_START, RECORD_START, shape.flags];
    bytes.extend(words.iter().flat_map(|word| word.to_le_bytes()));
    for (at, set) in halves {
        let Some(set) = set else { continue };
        bytes.resize(at, 0);
        bytes.extend((2 * least.averages as u32 + 1).to_le_bytes());
        bytes.extend(set);
    }
    Ok(bytes)
}

/// So many bytes of a set, where its flag asks for it.
fn asked_for(flag: i32, set: Option<&[u8]>, len: usize) -> Result<Option<&[u8]>, Error> {
    if flag == 0 {
        return Ok(None);
    }
    set.and_then(|set| set.get(..len)).map(Some).ok_or(Error::Buffer)
}
