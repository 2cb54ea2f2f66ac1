//! Entries of 8 bytes (paper 01, 'Entries and update').

#[derive(Clone, Copy, PartialEq, Eq, Debug, Default)]
pub struct Entry {
    pub x: i16,
    pub y: i16,
    /// 24 bits.
    pub sad: i32,
    pub luma: u8,
}

impl Entry {
    pub const fn from_bytes(b: [u8; 8]) -> Self {
        Self {
            y: i16::from_le_bytes([b[0], b[1]]),
            x: i16::from_le_bytes([b[2], b[3]]),
            sad: i32::from_le_bytes([b[4], b[5], b[6], 0]),
            luma: b[7],
        }
    }

    pub const fn bytes(&self) -> [u8; 8] {
        let (y, x, sad) = (self.y.to_le_bytes(), self.x.to_le_bytes(), self.sad.to_le_bytes());
        [y[0], y[1], x[0], x[1], sad[0], sad[1], sad[2], self.luma]
    }

    /// The entry of a block in a set's bytes.
    pub fn at(set: &[u8], block: usize) -> Self {
        let mut eight = [0; 8];
        eight.copy_from_slice(&set[8 * block..8 * block + 8]);
        Self::from_bytes(eight)
    }

    pub fn put(&self, set: &mut [u8], block: usize) {
        set[8 * block..8 * block + 8].copy_from_slice(&self.bytes());
    }
}
