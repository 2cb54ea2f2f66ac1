//! Pools as wrong programs answer them (paper 02, 3/14). Where one is not wrong it does what the model does.

use model::calls;
use model::entry::Entry;
use model::numbers::{self, counts_good};
use model::session::{Answer, Buffers, Session};
use model::shape::Shape;
use model::update::{BACKWARD, forward_place, payload_number};

/// What is kept of two entries instead.
const TIE: &str = "the second at a tie";
const GREATER: &str = "the greater sad";
const SIGNED: &str = "sads with a sign";
const NARROW: &str = "two bytes of the sads";
const LUMA_ABOVE: &str = "lumas above the sads";
const LUMA_BELOW: &str = "lumas at a tie";
const BY_BACKWARD: &str = "the backward sads for both sides";
const OTHER_X: &str = "the other's x";
const OTHER_Y: &str = "the other's y";
const OTHER_SAD: &str = "the other's sad";
const OTHER_LUMA: &str = "the other's luma";
const FIRST_LUMA: &str = "the first's luma";
const FIRST: &str = "the first alone";
const SECOND: &str = "the second alone";
pub const KEPT: [&str; 14] = [
    TIE,
    GREATER,
    SIGNED,
    NARROW,
    LUMA_ABOVE,
    LUMA_BELOW,
    BY_BACKWARD,
    OTHER_X,
    OTHER_Y,
    OTHER_SAD,
    OTHER_LUMA,
    FIRST_LUMA,
    FIRST,
    SECOND,
];

/// A side is written that is not flagged.
const BACKWARD_TOO: &str = "an unflagged backward set written";
const FORWARD_TOO: &str = "an unflagged forward set written";
pub const UNFLAGGED: [&str; 2] = [BACKWARD_TOO, FORWARD_TOO];

/// Where neither side is flagged an accepted pool does nothing.
pub const NOTHING: &str = "nothing made afresh without a flag";

/// Refused by 6 with bit 0 set, the backward set is new and all is made afresh, as by a take; or the first payload is taken before the
/// second is judged.
const AS_TAKE: &str = "6 of the first as in take";
const AS_TAKE_LATER: &str = "6 of the second as in take";
const TAKEN_FIRST: &str = "the first taken before the second is judged";
pub const WRITTEN: [&str; 3] = [AS_TAKE, AS_TAKE_LATER, TAKEN_FIRST];

/// Which number is answered where both payloads are refused.
const SECONDS: &str = "the second's number first";
const LEAST: &str = "the least number of both";
pub const NUMBERS: [&str; 2] = [SECONDS, LEAST];

/// Lists that are not emptied: their counts, their slots, both; and counts that are judged.
const COUNTS: &str = "step counts kept";
pub const SLOTS: &str = "slots kept";
const LISTS: &str = "lists kept";
const JUDGED: &str = "step counts judged";

/// None of them.
const RIGHT: &str = "";

pub fn all() -> Vec<&'static str> {
    [&KEPT[..], &UNFLAGGED, &[NOTHING], &WRITTEN, &NUMBERS, &[COUNTS, SLOTS, LISTS, JUDGED]].concat()
}

/// A pool's session and both payloads.
#[derive(Clone, Copy)]
struct Given<'a> {
    session: Session,
    first: &'a [u8],
    second: &'a [u8],
}

pub fn answered(program: &str, session: Session, [first, second]: [&[u8]; 2], b: &mut Buffers) -> Answer {
    let given = Given { session, first, second };
    let number = numbers::pool(&session, first, second, b);
    match number {
        0 if KEPT.contains(&program) => given.keeping(program, b),
        0 => given.accepted(program, b),
        4..=6 => given.refused(program, number, b),
        _ => given.right(b),
    }
}

impl Given<'_> {
    fn right(&self, b: &mut Buffers) -> Answer {
        calls::pool(self.session, self.first, self.second, b)
    }

    // ---- accepted

    /// The right call, given twice what the program keeps.
    fn keeping(&self, program: &str, b: &mut Buffers) -> Answer {
        let kept = self.joined(program);
        calls::pool(self.session, &kept, &kept, b)
    }

    /// A payload of what is kept on each flagged side.
    fn joined(&self, program: &str) -> Vec<u8> {
        let shape = &self.session.shape;
        let (mut out, both) = (self.first.to_vec(), shape.has_backward() && shape.has_forward());
        for half in halves(shape) {
            let judged = if program == BY_BACKWARD && both { BACKWARD } else { half };
            for block in 0..shape.blocks() {
                let chosen = usize::from(second_kept(program, self.entries(judged, block)));
                mixed(program, self.entries(half, block), chosen).put(&mut out[half + 4..], block);
            }
        }
        out
    }

    /// What both payloads have for a block in the half at `half`.
    fn entries(&self, half: usize, block: usize) -> [Entry; 2] {
        [self.first, self.second].map(|payload| Entry::at(&payload[half + 4..], block))
    }

    fn accepted(&self, program: &str, b: &mut Buffers) -> Answer {
        let (session, history) = (self.session, b.history.clone());
        match program {
            BACKWARD_TOO => return self.flagged(1, b),
            FORWARD_TOO => return self.flagged(2, b),
            NOTHING if session.shape.flags & 3 == 0 => return Answer { number: 0, session },
            JUDGED if !counts_good(&session, b) => return Answer { number: 11, session },
            _ => {}
        }
        let mut answer = self.right(b);
        if matches!(program, COUNTS | LISTS) {
            (answer.session.past, answer.session.future) = (session.past, session.future);
        }
        if matches!(program, SLOTS | LISTS) {
            b.history = history;
        }
        answer
    }

    /// As if a side were flagged too, where both payloads have its half.
    fn flagged(&self, bit: i32, b: &mut Buffers) -> Answer {
        let flags = self.session.shape.flags;
        let session = Session { shape: Shape { flags: flags | bit, ..self.session.shape }, ..self.session };
        let [first, second] = [self.first, self.second].map(|payload| {
            let mut out = payload.to_vec();
            out[8..12].copy_from_slice(&(flags | bit).to_le_bytes());
            out
        });
        if numbers::pool(&session, &first, &second, b) != 0 {
            return self.right(b);
        }
        let mut answer = calls::pool(session, &first, &second, b);
        answer.session.shape.flags = flags;
        answer
    }

    // ---- refused

    fn refused(&self, program: &str, number: u32, b: &mut Buffers) -> Answer {
        let [first, second] = [self.first, self.second].map(|payload| payload_number(&self.session.shape, payload));
        let told = |number: u32| Answer { number, session: self.session };
        match (program, first, second) {
            (SECONDS, _, 1..) => told(second),
            (LEAST, 1.., 1..) => told(first.min(second)),
            (AS_TAKE, 6, _) => calls::take(self.session, self.first, b),
            (AS_TAKE_LATER, 0, 6) => calls::take(self.session, &self.backward_kept(), b),
            (TAKEN_FIRST, 0, _) => Answer { number, ..calls::take(self.session, self.first, b) },
            _ => told(number),
        }
    }

    /// A payload of what is rightly kept of both backward halves, without a forward half.
    fn backward_kept(&self) -> Vec<u8> {
        let shape = self.session.shape;
        let one_side = Session { shape: Shape { flags: shape.flags & !2, ..shape }, ..self.session };
        let mut kept = Given { session: one_side, ..*self }.joined(RIGHT);
        kept.truncate(forward_place(&shape));
        kept
    }
}

/// The places of the flagged halves.
fn halves(shape: &Shape) -> Vec<usize> {
    let all = [(shape.has_backward(), BACKWARD), (shape.has_forward(), forward_place(shape))];
    all.into_iter().filter(|(flagged, _)| *flagged).map(|(_, half)| half).collect()
}

fn second_kept(program: &str, [first, second]: [Entry; 2]) -> bool {
    // with its highest bit where that of an i32 is
    let signed = |entry: Entry| entry.sad << 8;
    match program {
        TIE => second.sad <= first.sad,
        GREATER => second.sad > first.sad,
        SIGNED => signed(second) < signed(first),
        NARROW => second.sad & 0xFFFF < first.sad & 0xFFFF,
        LUMA_ABOVE => (second.luma, second.sad) < (first.luma, first.sad),
        LUMA_BELOW => (second.sad, second.luma) < (first.sad, first.luma),
        FIRST => false,
        SECOND => true,
        _ => second.sad < first.sad,
    }
}

/// The chosen one of two entries, with a part of the other.
fn mixed(program: &str, entries: [Entry; 2], chosen: usize) -> Entry {
    let (kept, other) = (entries[chosen], entries[1 - chosen]);
    match program {
        OTHER_X => Entry { x: other.x, ..kept },
        OTHER_Y => Entry { y: other.y, ..kept },
        OTHER_SAD => Entry { sad: other.sad, ..kept },
        OTHER_LUMA => Entry { luma: other.luma, ..kept },
        FIRST_LUMA => Entry { luma: entries[0].luma, ..kept },
        _ => kept,
    }
}

#[cfg(test)]
mod tests {
    use model::drawn::{filled, payload_of};
    use model::history::SLOT;
    use model::list::Call;
    use model::recorded;
    use model::session::Limits;
    use model::shape::{Axis, sizes};

    use crate::session::scenario::Scenario;

    use super::*;

    /// One block.
    fn shape(flags: i32) -> Shape {
        Shape { flags, ..Shape::of_axes(Axis::covering(8, 0, 1, 0), Axis::covering(8, 0, 1, 0), 1) }
    }

    /// A payload of one entry on each side.
    fn payload(flags: i32, [backward, forward]: [Entry; 2]) -> Vec<u8> {
        payload_of(&shape(flags), vec![0; BACKWARD], [backward, forward].map(|entry| entry.bytes().to_vec()))
    }

    /// A pool of a program is told from the right one, after an open and so many puts; the session counts more of them than the three that are kept.
    fn told_apart(program: &str, flags: i32, puts: u32, [first, second]: [&[u8]; 2]) -> bool {
        let mut lengths = [0; 9];
        lengths.copy_from_slice(&sizes(&shape(flags))[..9]);
        lengths[8] = 3 * SLOT;
        let mut b = filled(5, lengths);
        let mut session = calls::open(shape(flags), 1, Limits::USUAL, 256, &mut b).session;
        for x in 0..puts as i16 {
            let put = calls::Put { side: 1, block: 0, x, y: 0, sad: 9, luma: 1, gesture: 0 };
            session = calls::put(session, put, &mut b).session;
        }
        session.past = puts;
        let mut other = b.clone();
        let right = calls::pool(session, first, second, &mut b);
        (answered(program, session, [first, second], &mut other), other) != (right, b)
    }

    const fn entry(x: i16, y: i16, sad: i32, luma: u8) -> Entry {
        Entry { x, y, sad, luma }
    }

    #[test]
    fn each_choice_is_told_by_a_pair_of_its_own() {
        let plain = entry(1, 2, 5, 7);
        for (program, first, second) in [
            (TIE, entry(8, 2, 5, 7), plain),
            (GREATER, entry(1, 2, 6, 7), plain),
            (SIGNED, entry(1, 2, 0x7F_FFFF, 7), entry(1, 2, 0x80_0000, 7)),
            (NARROW, entry(1, 2, 0xFFFF, 7), entry(1, 2, 0x1_0000, 7)),
            (LUMA_ABOVE, entry(1, 2, 5, 8), entry(1, 2, 6, 7)),
            (LUMA_BELOW, entry(1, 2, 5, 8), plain),
            (OTHER_X, entry(8, 2, 5, 7), entry(1, 2, 6, 7)),
            (OTHER_Y, entry(1, 8, 5, 7), entry(1, 2, 6, 7)),
            (OTHER_SAD, plain, entry(1, 2, 6, 7)),
            (OTHER_LUMA, entry(1, 2, 5, 8), entry(1, 2, 6, 7)),
            (FIRST_LUMA, entry(1, 2, 6, 8), plain),
            (FIRST, entry(1, 2, 6, 7), plain),
            (SECOND, plain, entry(1, 2, 6, 7)),
        ] {
            let payloads = [first, second].map(|entry| payload(3, [entry; 2]));
            assert!(told_apart(program, 3, 0, [&payloads[0], &payloads[1]]), "{program}");
        }
        let payloads = [[plain, entry(1, 2, 6, 7)], [entry(1, 2, 6, 7), plain]].map(|sides| payload(3, sides));
        assert!(told_apart(BY_BACKWARD, 3, 0, [&payloads[0], &payloads[1]]));
    }

    #[test]
    fn each_other_program_is_told_by_a_case_of_its_own() {
        let whole = |flags| payload(flags, [entry(1, 2, 5, 7); 2]);
        let cut = |flags, bytes: usize| whole(flags)[..bytes].to_vec();
        for (program, flags, puts, first, second) in [
            (BACKWARD_TOO, 2, 0, whole(2), whole(2)),
            (FORWARD_TOO, 1, 0, whole(1), whole(1)),
            (NOTHING, 0, 1, whole(0), whole(0)),
            (AS_TAKE, 3, 0, cut(3, 87), whole(3)),
            (AS_TAKE_LATER, 3, 0, whole(3), cut(3, 87)),
            (TAKEN_FIRST, 3, 0, whole(3), cut(3, 11)),
            (SECONDS, 3, 0, cut(3, 87), cut(3, 11)),
            (LEAST, 3, 0, cut(3, 87), cut(3, 70)),
            (COUNTS, 3, 1, whole(3), whole(3)),
            (SLOTS, 3, 1, whole(3), whole(3)),
            (LISTS, 3, 1, whole(3), whole(3)),
            (JUDGED, 3, 4, whole(3), whole(3)),
        ] {
            assert!(told_apart(program, flags, puts, [&first, &second]), "{program}");
        }
    }

    #[test]
    fn every_program_is_right_where_its_fault_does_not_show() {
        let (whole, short) = (payload(3, [entry(1, 2, 5, 7); 2]), payload(2, [entry(1, 2, 5, 7); 2]));
        for program in all() {
            assert!(!told_apart(program, 3, 0, [&whole, &whole]), "{program}");
            assert!(!told_apart(program, 3, 1, [&short, &short]), "{program}, refused by 4");
        }
    }

    /// Session, answers and buffers after a list whose pools are a program's.
    fn ended(list: &Scenario, program: &str) -> (Session, Vec<u32>, Buffers) {
        let (mut session, mut b, mut numbers) = (list.session, list.buffers.clone(), Vec::new());
        if list.opens {
            session = calls::open(session.shape, session.side, session.limits, session.time, &mut b).session;
        }
        for call in &list.calls {
            let answer = match call {
                Call::Pool { first, second } => answered(program, session, [first, second], &mut b),
                _ => call.run(session, &mut b),
            };
            numbers.push(answer.number);
            session = answer.session;
        }
        (session, numbers, b)
    }

    #[test]
    fn what_recorded_lists_end_with_tells_every_program() {
        let mut lists: Vec<Scenario> = recorded::cases().iter().map(Scenario::of).collect();
        lists.retain(|list| list.calls.iter().any(|call| matches!(call, Call::Pool { .. })));
        for program in all() {
            let told = lists.iter().filter(|list| ended(list, program) != ended(list, RIGHT)).count();
            assert!(told > 1, "{program}: {told}");
        }
    }
}
