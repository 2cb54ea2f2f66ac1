//! The gestures of puts that name none.

use crate::script::{Call, Line};
use std::collections::BTreeSet;
use yoltzimur::{Gesture, Gestures};

/// Hands out numbers that no line of a script names, so that a put with one of them is a gesture of its own.
pub struct Unnamed {
    named: BTreeSet<u32>,
    gestures: Gestures,
}

impl Unnamed {
    pub fn of(lines: &[Line]) -> Unnamed {
        let named = lines.iter().filter_map(|line| match line.call {
            Call::Put(.., gesture) => gesture.map(Gesture::number),
            _ => None,
        });
        Unnamed { named: named.collect(), gestures: Gestures::new() }
    }

    /// The next one. A script is far too short to name all numbers.
    pub fn begin(&mut self) -> Gesture {
        let mut begun = self.gestures.begin();
        while self.named.contains(&begun.number()) {
            begun = self.gestures.begin();
        }
        begun
    }
}

#[cfg(test)]
mod tests {
    use super::Unnamed;
    use crate::input::Payloads;
    use crate::script;
    use std::path::Path;

    #[test]
    fn no_number_is_one_that_the_script_names() {
        let text = "put forward 1 gesture=2\nput forward 2\nput forward 3 x=1 gesture=0\nundo\n";
        let lines = script::read(text, Path::new(""), &mut Payloads::default()).unwrap();
        let mut unnamed = Unnamed::of(&lines);
        assert_eq!([(); 3].map(|()| unnamed.begin().number()), [1, 3, 4]);
    }
}
