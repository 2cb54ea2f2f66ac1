//! The cases that the program `playback` plays, and what it must print of them.

mod case;
mod digest;
mod forged;
mod forged_pools;
mod gestures;
mod kept;
mod long;
mod pooled;
mod refusals;
mod tape;

pub use case::{Case, Tally};

/// Lists after an accepted open, then lists on sessions and buffers that no call left so; then lists for what paper 02 adds.
pub fn cases() -> Vec<Case> {
    let mut out = long::cases();
    out.extend(refusals::cases());
    out.extend(forged::cases());
    out.extend(kept::cases());
    out.extend(gestures::cases());
    out.extend(pooled::cases());
    out.extend(forged_pools::cases());
    out
}

/// The file of cases.
pub fn file(cases: &[Case]) -> Vec<u8> {
    let mut out = (cases.len() as u32).to_le_bytes().to_vec();
    for case in cases {
        case.write(&mut out);
    }
    out
}

/// What must be printed, and how often each number was answered.
pub fn printed(cases: &[Case]) -> (String, Tally) {
    let (mut text, mut tally) = (String::new(), Tally::default());
    for (index, case) in cases.iter().enumerate() {
        text += &format!("case {}: {}\n", index + 1, case.played(&mut tally));
    }
    text += &format!("{} cases, {tally}\n", cases.len());
    (text, tally)
}

#[cfg(test)]
mod tests {
    use std::cmp::Ordering;
    use std::collections::BTreeSet;
    use std::fs;

    use crate::calls;
    use crate::history::{depth, future_run, past_run};
    use crate::list::Call;
    use crate::numbers::{self, counts_good, steps_good};
    use crate::session::{Buffers, Session};
    use crate::update::{BACKWARD, forward_place, payload_number};

    use super::{Case, cases, file, printed};

    const PLAYBACK: &str = concat!(env!("CARGO_MANIFEST_DIR"), "/../../crates/playback");

    #[test]
    fn the_repository_holds_what_is_recorded() {
        let cases = cases();
        for (name, bytes) in [("data/lists.bin", file(&cases)), ("stdout", printed(&cases).0.into_bytes())] {
            let held = fs::read(format!("{PLAYBACK}/{name}")).unwrap_or_else(|problem| panic!("{name}: {problem}"));
            assert!(held == bytes, "{PLAYBACK}/{name} is not what `lists` writes");
        }
    }

    #[test]
    fn cases_keep_to_the_limits() {
        let cases = cases();
        assert!(cases.iter().all(|case| case.within_limits().is_ok()));
        let seed = Case { seed: 1_000_000, ..cases[0].clone() };
        assert!(seed.within_limits().is_err_and(|told| told.contains("seed 1000000 (below 1000000)")));
    }

    #[test]
    fn every_number_and_every_kept_class_arises() {
        let (text, tally) = printed(&cases());
        assert!((2..=11).all(|number| tally.times(number) > 0), "{tally}");
        for kept in ["K0.0", "K0.1", "K0.2", "K0.3", "K2.0", "K7.0", "K8.0", "K12.0"] {
            assert!(text.contains(&format!(" {kept}, ")), "{kept}");
        }
    }

    /// Shows each call of every case, with the session and the buffers before it.
    fn each_call(mut see: impl FnMut(&Call, &Session, &Buffers)) {
        for case in cases() {
            let (mut session, mut b, mut rest) = (case.session, case.buffers(), &case.calls[..]);
            if case.opens {
                session = calls::open(session.shape, session.side, session.limits, session.time, &mut b).session;
            }
            while let Some((call, length)) = Call::read(rest) {
                see(&call, &session, &b);
                session = call.run(session, &mut b).session;
                rest = &rest[length..];
            }
        }
    }

    /// What undos, redos and puts of the cases meet.
    #[derive(Default, Debug)]
    struct Met {
        /// The longest run that was taken, and how many had several steps of one block.
        longest: [usize; 2],
        one_block: [u32; 2],
        /// Undos that a slot behind a good one refused.
        later_slot: u32,
        /// Puts that took the oldest step of a gesture and left others of it.
        cut_short: u32,
    }

    impl Met {
        /// Sees a call before it is made.
        fn see(&mut self, call: &Call, s: &Session, b: &Buffers) {
            let (past, future) = (s.past as usize, s.future as usize);
            if !(s.shape.accepted() && b.fit(&s.shape) && counts_good(s, b)) {
                return;
            }
            let (run, at) = match call {
                Call::Undo => (past_run(&b.history, past), 0),
                Call::Redo => (future_run(&b.history, past, future), 1),
                Call::Put(_) => {
                    let oldest = future_run(&b.history, 0, past);
                    self.cut_short += u32::from(past == depth(b.history.len()) && (2..past).contains(&oldest.len()));
                    return;
                }
                _ => return,
            };
            if steps_good(&s.shape, &run) {
                let places: BTreeSet<_> = run.iter().map(|step| (step.side, step.block)).collect();
                self.longest[at] = self.longest[at].max(run.len());
                self.one_block[at] += u32::from(places.len() < run.len());
            } else {
                self.later_slot += u32::from(steps_good(&s.shape, &run[..1]));
            }
        }
    }

    #[test]
    fn runs_are_taken_whole_and_cut_short_and_refused_by_a_later_slot() {
        let mut met = Met::default();
        each_call(|call, session, b| met.see(call, session, b));
        assert_eq!(met.longest, [4096, 4096]);
        let Met { one_block: [undone, redone], later_slot, cut_short, .. } = met;
        assert!(undone > 100 && redone > 100 && later_slot > 4 && cut_short > 50, "{met:?}");
    }

    /// What pools of the cases meet.
    #[derive(Default)]
    struct Pools {
        /// Numbers of what a session carries.
        carried: BTreeSet<u32>,
        /// Both flag bits and the number of each payload, where there are past steps.
        payloads: BTreeSet<(i32, [u32; 2])>,
        /// In which byte alone two sads differ that are compared, and how; none at a tie.
        sads: BTreeSet<(Option<usize>, Ordering)>,
    }

    impl Pools {
        fn see(&mut self, first: &[u8], second: &[u8], s: &Session, b: &Buffers) {
            let number = numbers::pool(s, first, second, b);
            if matches!(number, 2 | 3 | 7 | 8) {
                self.carried.insert(number);
                return;
            }
            let each = [first, second].map(|payload| payload_number(&s.shape, payload));
            if s.past > 0 {
                self.payloads.insert((s.shape.flags & 3, each));
            }
            let flagged = [(s.shape.has_backward(), BACKWARD), (s.shape.has_forward(), forward_place(&s.shape))];
            for (_, half) in flagged.into_iter().filter(|(flagged, _)| number == 0 && *flagged) {
                for sad in (0..s.shape.blocks()).map(|block| half + 4 + 8 * block + 4) {
                    self.see_sads(&first[sad..sad + 3], &second[sad..sad + 3]);
                }
            }
        }

        fn see_sads(&mut self, first: &[u8], second: &[u8]) {
            let mut differ = (0..3).filter(|&byte| first[byte] != second[byte]);
            let (byte, others) = (differ.next(), differ.next());
            if others.is_none() {
                self.sads.insert((byte, first.iter().rev().cmp(second.iter().rev())));
            }
        }
    }

    #[test]
    fn pools_meet_each_number_of_either_payload_ties_and_sads_that_differ_in_one_byte() {
        let mut pools = Pools::default();
        each_call(|call, session, b| {
            if let Call::Pool { first, second } = call {
                pools.see(first, second, session, b);
            }
        });
        assert_eq!(pools.carried, BTreeSet::from([2, 3, 7, 8]));
        for (bits, numbers) in [(0, &[0, 4][..]), (1, &[0, 4, 5]), (2, &[0, 4, 6]), (3, &[0, 4, 5, 6])] {
            for first in numbers {
                for second in numbers {
                    let met = (bits, [*first, *second]);
                    assert!(pools.payloads.contains(&met), "{met:?}");
                }
            }
        }
        let ways = |byte| [(Some(byte), Ordering::Less), (Some(byte), Ordering::Greater)];
        let expected = [0, 1, 2].into_iter().flat_map(ways).chain([(None, Ordering::Equal)]);
        assert_eq!(pools.sads, expected.collect());
    }
}
