//! The counts of a field's scores, and the class of the counts (paper 01, 'Masks and class').

use crate::modulo::wrapped;
use crate::session::{Counts, Limits};

/// How many scores count, those of zero's limit and above, and how many of these stand at each of scene, m2 and m1.
pub fn counts(limits: &Limits, scores: impl IntoIterator<Item = i32>) -> Counts {
    let counted: Vec<i32> = scores.into_iter().filter(|&score| score >= limits.zero).collect();
    let marks = [limits.scene, limits.m2, limits.m1];
    // A score stands at the first mark that it reaches, and at no other.
    let place = |score: &i32| marks.iter().position(|mark| score >= mark);
    let standing = |at: usize| counted.iter().filter(|&score| place(score) == Some(at)).count() as u32;
    Counts { counted: counted.len() as u32, scene: standing(0), m2: standing(1), m1: standing(2) }
}

/// 3, 2 or 1 for the first of scene, m2 and m1 where the scores that stand there and before it make up the share; else 0.
pub fn class(blocks: i32, counts: &Counts) -> u32 {
    let share = i64::from(wrapped(i64::from(blocks) * i64::from(counts.counted)) / 100);
    let mut reached = 0;
    for (standing, class) in [(counts.scene, 3), (counts.m2, 2), (counts.m1, 1)] {
        reached += i64::from(standing);
        if share <= reached {
            return class;
        }
    }
    0
}
