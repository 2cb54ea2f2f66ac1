//! The parts of a payload: the entries of a half; and what is wrong with one that was refused, in words: the place, what stands there and
//! what is expected.

use yoltzimur::constants::{ENTRY_SIZE, FLAG_BACKWARD, FLAG_FORWARD, PAYLOAD_BACKWARD, PAYLOAD_START, RECORD_START};
use yoltzimur::{FieldShape, Side};

const BACKWARD: &str = "backward half";
const FORWARD: &str = "forward half";

/// A part of a payload: an i32 that must stand at a place, and how many bytes follow it.
struct Part {
    name: &'static str,
    at: usize,
    wanted: i32,
    follow: usize,
}

/// The parts that a shape's flags ask for, in their order.
fn parts(shape: FieldShape) -> Vec<Part> {
    let n = shape.grid_w.max(0) as usize * shape.grid_h.max(0) as usize;
    let (count, follow) = (2 * n as i32 + 1, ENTRY_SIZE * n);
    let mut parts = vec![
        Part { name: "head", at: 0, wanted: PAYLOAD_START, follow: 0 },
        Part { name: "head", at: 4, wanted: RECORD_START, follow: 0 },
        Part { name: "head", at: 8, wanted: shape.flags, follow: 0 },
    ];
    if shape.flags & FLAG_BACKWARD != 0 {
        parts.push(Part { name: BACKWARD, at: PAYLOAD_BACKWARD, wanted: count, follow });
    }
    if shape.flags & FLAG_FORWARD != 0 {
        parts.push(Part { name: FORWARD, at: PAYLOAD_BACKWARD + 4 + follow, wanted: count, follow });
    }
    parts
}

/// The entries of a side, if the flags ask for them and the payload has them.
pub fn half(shape: FieldShape, payload: &[u8], side: Side) -> Option<&[u8]> {
    let name = match side {
        Side::Backward => BACKWARD,
        Side::Forward => FORWARD,
    };
    let part = parts(shape).into_iter().find(|part| part.name == name)?;
    payload.get(part.at + 4..part.at + 4 + part.follow)
}

/// The first thing that is wrong, if one is found.
pub fn explain(shape: FieldShape, payload: &[u8]) -> Option<String> {
    parts(shape).iter().find_map(|part| {
        let (name, at, wanted) = (part.name, part.at, part.wanted);
        let end = at + 4 + part.follow;
        if payload.len() < end {
            return Some(format!("its {name} ends at byte {end}, and it has {} bytes", payload.len()));
        }
        let found = i32::from_le_bytes(payload.get(at..at + 4)?.try_into().ok()?);
        (found != wanted).then(|| format!("its {name} has {found} at byte {at}, and {wanted} is expected"))
    })
}

#[cfg(test)]
mod tests {
    use super::*;
    use crate::clip;

    #[test]
    fn a_half_is_what_its_flag_asks_for() {
        let (shape, whole) = (clip::shape(), clip::payload().unwrap());
        assert_eq!(half(shape, &whole, Side::Backward), Some(&whole[68..4148]));
        assert_eq!(half(shape, &whole, Side::Forward), Some(&whole[4152..]));
        assert_eq!(half(shape, &whole[..8231], Side::Forward), None);
        let forward_alone = FieldShape { flags: FLAG_FORWARD, ..shape };
        assert_eq!(half(forward_alone, &whole, Side::Backward), None);
        assert_eq!(half(forward_alone, &whole, Side::Forward), Some(&whole[4152..]));
    }

    #[test]
    fn each_cut_and_each_changed_word_is_told() {
        let (shape, good) = (clip::shape(), clip::payload().unwrap());
        assert_eq!(explain(shape, &good), None);
        for (length, name) in [(11, "head"), (67, "backward"), (4147, "backward"), (4151, "forward"), (8231, "forward")]
        {
            assert!(explain(shape, &good[..length]).is_some_and(|text| text.contains(name)), "{length}");
        }
        for at in [0, 4, 8, 64, 4148] {
            let mut wrong = good.clone();
            wrong[at] ^= 1;
            assert!(explain(shape, &wrong).is_some_and(|text| text.contains(&format!("at byte {at},"))), "{at}");
        }
    }
}
