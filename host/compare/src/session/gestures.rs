//! Runs in forged slots (paper 02, 2/14): gestures in several arrangements with a bad slot at each place, runs as long as the deepest history,
//! and histories of each size about that of a slot.

use draw::Draw;
use model::calls::Put;
use model::drawn::{self, buffers, entry, lengths};
use model::history::{DEEPEST, SLOT, Step, depth};
use model::list::Call;
use model::session::{Buffers, Counts, Limits, Session};
use model::shape::{Axis, Shape};

use crate::session::scenario::Scenario;

pub fn scenarios(small: bool) -> impl Iterator<Item = Scenario> {
    arranged().chain(deepest()).chain(sized()).chain(filled(small))
}

/// Two blocks by two.
fn shape() -> Shape {
    Shape::of_axes(Axis::covering(8, 2, 2, 1), Axis::covering(8, 0, 2, 0), 1)
}

/// Session and buffers as no call left them: a step of each gesture, several of one block on one side.
fn forged(gestures: &[u32], history: usize, (past, future): (u32, u32)) -> Scenario {
    let (mut draw, shape) = (Draw::new(73), shape());
    let lengths = lengths(&mut draw, &shape, history);
    let mut buffers = buffers(&mut draw, lengths);
    for (at, (slot, &gesture)) in buffers.history.chunks_exact_mut(SLOT).zip(gestures).enumerate() {
        let (block, side) = ([0, 1, 0, 0, 3, 0, 1][at % 7], [1, 2, 1, 2, 2, 1, 2][at % 7]);
        let (old, new) = (entry(&mut draw, &shape), entry(&mut draw, &shape));
        slot.copy_from_slice(&Step { block, side, old, new, gesture }.bytes());
    }
    let kept = Counts { counted: u32::MAX, scene: 0, m2: 4, m1: 1 };
    let session = Session { shape, side: 1 + past % 2, limits: Limits::USUAL, time: 200, past, future, kept };
    Scenario { session, opens: false, buffers, calls: Vec::new() }
}

/// Gives a slot another side or another block.
fn spoil(b: &mut Buffers, slot: usize, side: Option<u32>, block: Option<u32>) {
    if let Some(step) = Step::at(&b.history, slot) {
        let bad = Step { side: side.unwrap_or(step.side), block: block.unwrap_or(step.block), ..step };
        b.history[SLOT * slot..SLOT * (slot + 1)].copy_from_slice(&bad.bytes());
    }
}

// ---- a few slots

/// Gestures of seven slots: one run; a run between others; a number that stands further on too; numbers that differ in one byte.
const ARRANGED: [[u32; 7]; 5] = [
    [5; 7],
    [9, 5, 5, 5, 5, 9, 9],
    [5, 5, 9, 5, 5, 9, 5],
    [5, 9, 9, 9, 9, 5, 5],
    [1, 1, 0x0100_0001, 0x0100_0001, 1, 0x0101, 0x0101],
];

/// Past and future steps: all seven slots, fewer, and more than there are.
const COUNTS: [(u32, u32); 16] = [
    (7, 0),
    (6, 1),
    (5, 2),
    (4, 3),
    (3, 4),
    (2, 5),
    (1, 6),
    (0, 7),
    (5, 0),
    (0, 5),
    (4, 1),
    (1, 4),
    (8, 0),
    (4, 4),
    (u32::MAX, 1),
    (1, u32::MAX),
];

/// Every arrangement at all counts, with no bad slot, and with a bad side and a bad block at each place.
fn arranged() -> impl Iterator<Item = Scenario> {
    let counted = ARRANGED.into_iter().flat_map(|gestures| COUNTS.map(|counts| (gestures, counts)));
    counted.flat_map(|(gestures, counts)| {
        (0..15).map(move |turn| {
            let mut scenario = forged(&gestures, 7 * SLOT + 2, counts);
            let slot = turn / 2;
            let (side, block) = ([0, 3, 256, 257, u32::MAX][slot % 5], [4, 5, 256, u32::MAX][slot % 4]);
            match turn {
                14 => {}
                _ if turn % 2 == 0 => spoil(&mut scenario.buffers, slot, Some(side), None),
                _ => spoil(&mut scenario.buffers, slot, None, Some(block)),
            }
            scenario.calls = vec![Call::Undo, Call::Redo, Call::Redo, Call::Undo, Call::Undo, Call::Redo];
            scenario
        })
    })
}

// ---- the deepest history

/// One run of 4,096 slots, past or future or both, with no bad slot and with one at either end and about the middle.
fn deepest() -> impl Iterator<Item = Scenario> {
    let (most, half) = (DEEPEST as u32, DEEPEST as u32 / 2);
    let counts = [(most, 0), (0, most), (half, half), (most - 1, 1), (1, most - 1), (most + 1, 0)];
    counts.into_iter().flat_map(move |counts| {
        [None, Some(0), Some(DEEPEST / 2 - 1), Some(DEEPEST / 2), Some(DEEPEST - 1)].map(move |bad| {
            let mut scenario = forged(&[40; DEEPEST], SLOT * DEEPEST, counts);
            if let Some(slot) = bad {
                spoil(&mut scenario.buffers, slot, Some(0), None);
            }
            scenario.calls = vec![Call::Undo, Call::Redo, Call::Redo];
            scenario
        })
    })
}

// ---- sizes

/// Sizes about those of no slot, one, two, three and 4,096.
const SIZES: [usize; 14] = [
    0,
    23,
    24,
    SLOT - 1,
    SLOT,
    SLOT + 1,
    2 * SLOT - 1,
    2 * SLOT,
    2 * SLOT + 1,
    3 * SLOT,
    SLOT * DEEPEST - 1,
    SLOT * DEEPEST,
    SLOT * DEEPEST + 1,
    SLOT * (DEEPEST + 1),
];

/// Puts of a gesture.
fn puts(count: usize, gesture: u32) -> Vec<Call> {
    let mut draw = Draw::new(74);
    (0..count).map(|_| Call::Put(Put { gesture, ..drawn::put(&mut draw, &shape(), false) })).collect()
}

/// Of each size, with as many past steps as there are slots, one less and one more: puts that join the run there, and one undo of all.
fn sized() -> impl Iterator<Item = Scenario> {
    SIZES.into_iter().flat_map(|history| {
        let depth = depth(history) as u32;
        [depth.saturating_sub(1), depth, depth + 1].map(move |past| {
            let calls = [puts(2, 6), vec![Call::Undo, Call::Redo, Call::Redo], puts(2, 6)].concat();
            Scenario { calls, ..forged(&vec![6; depth as usize], history, (past, 0)) }
        })
    })
}

/// Of each size, from an open, as many puts as there are slots and three more: two gestures of which the older is cut short, or gone. Where
/// small, not of the largest.
fn filled(small: bool) -> impl Iterator<Item = Scenario> {
    SIZES.into_iter().filter(move |&history| !small || depth(history) < 4).flat_map(|history| {
        let all = depth(history) + 3;
        [2, all / 2, all].map(|older| {
            let calls = [puts(older, 1), puts(all - older, 2), vec![Call::Undo, Call::Undo, Call::Undo, Call::Redo]];
            Scenario { opens: true, calls: calls.concat(), ..forged(&[], history, (0, 0)) }
        })
    })
}

#[cfg(test)]
mod tests {
    use std::collections::BTreeSet;

    use model::history::{future_run, past_run};
    use model::numbers::{counts_good, steps_good};

    use super::*;

    /// The places of a run's slots as a call meets them, and of the slots before and behind it; how many are the run's.
    fn places(scenario: &Scenario, call: &Call) -> (Vec<i64>, usize) {
        let (history, s) = (&scenario.buffers.history, &scenario.session);
        let (past, future) = (s.past as usize, s.future as usize);
        if *call == Call::Undo {
            let run = past_run(history, past).len();
            ((0..run as i64 + 2).map(|at| past as i64 - at).collect(), run)
        } else {
            let run = future_run(history, past, future).len();
            ((0..run as i64 + 2).map(|at| past as i64 - 1 + at).collect(), run)
        }
    }

    #[test]
    fn a_bad_slot_stands_at_each_place_of_a_run_and_just_outside() {
        for (call, empty) in [(Call::Undo, 9), (Call::Redo, 10)] {
            let mut met = BTreeSet::new();
            for mut scenario in arranged().filter(|scenario| counts_good(&scenario.session, &scenario.buffers)) {
                let (places, run) = places(&scenario, &call);
                let bad = |slot: i64| {
                    let step = usize::try_from(slot).ok().and_then(|slot| Step::at(&scenario.buffers.history, slot));
                    step.is_some_and(|step| !steps_good(&shape(), &[step]))
                };
                let bad = places.iter().position(|&slot| bad(slot));
                let number = call.run(scenario.session, &mut scenario.buffers).number;
                let inside = bad.is_some_and(|at| (1..=run).contains(&at));
                assert_eq!(
                    number,
                    if run == 0 {
                        empty
                    } else if inside {
                        11
                    } else {
                        0
                    }
                );
                met.insert((run, bad));
            }
            for run in [1, 2, 3, 4, 5, 6, 7] {
                for at in 1..=run {
                    assert!(met.contains(&(run, Some(at))), "{call:?}, bad at {at} of {run}");
                }
            }
            for run in [1, 2, 3, 4] {
                assert!(met.contains(&(run, Some(0))) && met.contains(&(run, Some(run + 1))), "{call:?}, beside {run}");
            }
        }
    }

    #[test]
    fn the_deepest_runs_are_taken_whole_or_not_at_all() {
        let mut taken = BTreeSet::new();
        for Scenario { session, mut buffers, .. } in deepest() {
            let answer = Call::Undo.run(session, &mut buffers);
            taken.insert((answer.number, session.past - answer.session.past));
        }
        let steps = [1, 2048, 4095, 4096].map(|steps| (0, steps));
        assert_eq!(taken, steps.into_iter().chain([(9, 0), (11, 0)]).collect());
    }
}
