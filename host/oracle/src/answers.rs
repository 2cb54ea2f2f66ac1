//! The file format of recorded answers. Every number is little-endian.
//!
//! A file is a u32 count and that many cases. A case is a u32 size and that many bytes of parts. A part is a u32 length
//! and that many bytes. A case's first part is its numbers, i32 each. An answer is two parts: how many bytes it has and their
//! digest, u32 each; and the bytes themselves, or none where they are more than `WHOLE`.

/// Longer answers are kept by their digest alone.
pub const WHOLE: usize = 512;

/// FNV-1a, 32 bits.
pub fn digest(bytes: &[u8]) -> u32 {
    bytes.iter().fold(0x811C_9DC5, |hash, &byte| (hash ^ u32::from(byte)).wrapping_mul(0x0100_0193))
}

/// The bytes of a case, and where among them stand bytes that a replay must compare.
#[derive(Clone)]
pub struct Case {
    bytes: Vec<u8>,
    compared: Vec<usize>,
}

impl Case {
    pub fn new(numbers: &[i32]) -> Self {
        let bytes: Vec<u8> = numbers.iter().flat_map(|number| number.to_le_bytes()).collect();
        Self { bytes: Vec::new(), compared: Vec::new() }.part(&bytes)
    }

    /// Says that number `k` is an answer.
    pub fn answered_by(mut self, k: usize) -> Self {
        self.compared.push(4 + 4 * k);
        self
    }

    pub fn part(mut self, bytes: &[u8]) -> Self {
        self.bytes.extend((bytes.len() as u32).to_le_bytes());
        self.bytes.extend(bytes);
        self
    }

    pub fn answer(mut self, bytes: &[u8]) -> Self {
        let whole = if bytes.len() <= WHOLE { bytes } else { &[] };
        let sum = [bytes.len() as u32, digest(bytes)];
        let start = self.bytes.len();
        self.compared.extend([start + 4, start + 8, start + 11]);
        if let Some(last) = whole.len().checked_sub(1) {
            self.compared.extend([start + 16, start + 16 + last]);
        }
        self.part(sum.map(u32::to_le_bytes).as_flattened()).part(whole)
    }

    /// The case with a bit of each compared byte changed, one at a time.
    fn damaged(&self) -> impl Iterator<Item = Self> {
        self.compared.iter().map(|&at| {
            let mut case = self.clone();
            case.bytes[at] ^= 1;
            case
        })
    }
}

/// Damaged copies of a few cases, the first and the last among them: a replay must call every one of them different.
pub fn damaged(cases: &[Case]) -> Vec<Case> {
    let some = cases.iter().step_by((cases.len() / 8).max(1)).chain(cases.last());
    some.flat_map(Case::damaged).collect()
}

/// The bytes of a file.
pub fn file(cases: &[Case]) -> Vec<u8> {
    let mut out = (cases.len() as u32).to_le_bytes().to_vec();
    for case in cases {
        out.extend((case.bytes.len() as u32).to_le_bytes());
        out.extend(&case.bytes);
    }
    out
}

#[cfg(test)]
mod tests {
    use super::{Case, digest, file};

    #[test]
    fn digest_is_fnv_1a() {
        assert_eq!(digest(b""), 0x811C_9DC5);
        assert_eq!(digest(b"a"), 0xE40C_292C);
        assert_eq!(digest(b"foobar"), 0xBF9C_F968);
    }

    #[test]
    fn a_file_is_laid_out_as_said() {
        let bytes = file(&[Case::new(&[-1]).part(&[7, 8])]);
        assert_eq!(bytes, [1, 0, 0, 0, 14, 0, 0, 0, 4, 0, 0, 0, 255, 255, 255, 255, 2, 0, 0, 0, 7, 8]);
    }
}
