//! The cases of each call, boundaries first, then drawn ones. Each call has a file of its own.

mod avg_luma;
mod cover_mask;
mod pack;
mod quality;
mod sad_mask;
mod scatter;
mod sets;
mod update;
mod vector_data;

use crate::answers::{Case, damaged};

pub struct Kind {
    pub name: &'static str,
    pub cases: fn() -> Vec<Case>,
}

impl Kind {
    /// The cases of the call's two files, each with its file's ending.
    pub fn recorded(&self) -> [(&'static str, Vec<Case>); 2] {
        let cases = (self.cases)();
        let damaged = damaged(&cases);
        [("answers", cases), ("damaged", damaged)]
    }
}

pub const KINDS: [Kind; 9] = [
    Kind { name: "vector_data", cases: vector_data::cases },
    Kind { name: "update", cases: update::cases },
    Kind { name: "scatter", cases: scatter::cases },
    Kind { name: "pack", cases: pack::cases },
    Kind { name: "avg_luma", cases: avg_luma::cases },
    Kind { name: "quality_map", cases: quality::map_cases },
    Kind { name: "quality", cases: quality::class_cases },
    Kind { name: "cover_mask", cases: cover_mask::cases },
    Kind { name: "sad_mask", cases: sad_mask::cases },
];

/// Sides are numbers in a case: 1 backward, 2 forward.
const BACKWARD: i32 = 1;
const FORWARD: i32 = 2;
const SIDES: [i32; 2] = [BACKWARD, FORWARD];

#[cfg(test)]
mod tests {
    use super::scatter;

    #[test]
    fn gathered_blocks_wrap_a_cell() {
        let given = scatter::given_of(&model::drawn::GATHERINGS[2]);
        let (width, height) = given.size();
        let (mut scratch, mut mask) = (Vec::new(), vec![0; given.shape.plane_size()]);
        given.field().cover_mask(&mut scratch, false, &mut mask, 100, 256, width, height);
        assert_eq!(scratch.iter().filter(|&&cell| cell < 0).count(), 1);
    }
}
