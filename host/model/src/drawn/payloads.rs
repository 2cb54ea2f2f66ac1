//! Payloads, whole and damaged, and pairs of them.

use draw::Draw;

use crate::drawn::set;
use crate::shape::Shape;
use crate::update::{BACKWARD, forward_place};

/// A whole payload of 64 bytes, in which the head is set, and the bytes of both sets.
pub fn payload_of(shape: &Shape, mut bytes: Vec<u8>, sets: [Vec<u8>; 2]) -> Vec<u8> {
    let expected = 2 * shape.blocks() as i32 + 1;
    for (at, value) in [(0, 16), (4, 160), (8, shape.flags)] {
        bytes[at..at + 4].copy_from_slice(&i32::to_le_bytes(value));
    }
    for set in sets {
        bytes.extend(expected.to_le_bytes());
        bytes.extend(set);
    }
    bytes
}

/// A whole payload: head, both halves, and drawn bytes where they are ignored.
pub fn payload(draw: &mut Draw, shape: &Shape) -> Vec<u8> {
    let bytes = draw.bytes(BACKWARD);
    let sets = [(); 2].map(|()| set(draw, shape));
    payload_of(shape, bytes, sets)
}

/// A payload that is cut about a boundary, or has a bit of a checked number changed, or has both, or has bytes behind its end.
pub fn damaged(draw: &mut Draw, shape: &Shape) -> Vec<u8> {
    let mut bytes = payload(draw, shape);
    let (forward, whole) = (forward_place(shape), bytes.len());
    if draw.once_in(2) {
        let checked = draw.pick(&[0, 4, 8, BACKWARD, BACKWARD, forward, forward]);
        bytes[checked + draw.between(0, 3) as usize] ^= 1 << draw.between(0, 7);
    } else if draw.once_in(8) {
        let more = draw.between(1, 9) as usize;
        bytes.extend(draw.bytes(more));
    }
    if draw.once_in(2) {
        let about = draw.pick(&[0, 4, 8, 12, BACKWARD, BACKWARD + 4, forward, forward + 4, whole]);
        let end = (about as i32 + draw.between(-2, 2)).max(0);
        bytes.truncate(end as usize);
    }
    bytes
}

/// Two whole payloads. The two sads of a block and side are often equal or differ in one bit alone.
pub fn pair(draw: &mut Draw, shape: &Shape) -> [Vec<u8>; 2] {
    let [first, mut second] = [(); 2].map(|()| payload(draw, shape));
    for half in [BACKWARD, forward_place(shape)] {
        for block in 0..shape.blocks() {
            let sad = half + 4 + 8 * block + 4;
            let near = draw.between(0, 3);
            if near < 2 {
                second[sad..sad + 3].copy_from_slice(&first[sad..sad + 3]);
            }
            if near == 1 {
                second[sad + draw.between(0, 2) as usize] ^= 1 << draw.between(0, 7);
            }
        }
    }
    [first, second]
}

/// Such a pair with the first, the second or both as damaged ones are.
pub fn damaged_pair(draw: &mut Draw, shape: &Shape) -> [Vec<u8>; 2] {
    let [first, second] = pair(draw, shape);
    match draw.between(0, 2) {
        0 => [damaged(draw, shape), second],
        1 => [first, damaged(draw, shape)],
        _ => [(); 2].map(|()| damaged(draw, shape)),
    }
}
