//! Luma averages, scores and the quality map (paper 01, 'Luma and map').

use crate::entry::Entry;
use crate::modulo::wrapped;
use crate::session::Limits;

/// The average of a block: the table at the sum of both lumas.
pub fn average(table: &[u8], backward: &[u8], forward: &[u8], block: usize) -> u8 {
    let sum = usize::from(Entry::at(backward, block).luma) + usize::from(Entry::at(forward, block).luma);
    table[sum]
}

/// The product wraps on purpose; the division truncates.
pub fn score(sad: i32, average: u8) -> i32 {
    wrapped(255 * i64::from(sad)) / i32::from(average).max(1)
}

/// The score of a block: the sad of the set, the average of both sets.
pub fn score_at(set: &[u8], averages: &[u8], block: usize) -> i32 {
    score(Entry::at(set, block).sad, averages[block])
}

/// The map byte of a score.
pub fn level(limits: &Limits, score: i32) -> u8 {
    if score < limits.zero {
        return 255;
    }
    let above = [limits.m1, limits.m2, limits.scene].iter().position(|&limit| limit > score);
    above.unwrap_or(3) as u8
}

pub fn map_byte(limits: &Limits, set: &[u8], averages: &[u8], block: usize) -> u8 {
    level(limits, score_at(set, averages, block))
}
