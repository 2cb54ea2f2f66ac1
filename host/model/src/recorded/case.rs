//! A case of the file: a session, the lengths and contents of the buffers, and a list of calls.

use std::fmt::{self, Display, Formatter};

use crate::calls;
use crate::drawn::filled;
use crate::list::play;
use crate::session::{Buffers, Session};

use super::digest::{of_i32, of_u8, of_u16, of_u32};

/// What stands in the answer buffer before a list is played.
const UNANSWERED: u32 = 99;

/// The most that the program has room for: the nine lengths, the answers and the bytes of calls.
const MOST: [usize; 9] = [4096, 4096, 600, 4096, 2048, 2048, 1024, 1024, 114_800];
const MOST_ANSWERS: usize = 16_384;
const MOST_CALLS: usize = 262_144;
const MOST_SEEDS: u32 = 1_000_000;

#[derive(Clone)]
pub struct Case {
    pub session: Session,
    /// True: open with the shape, side, limits and time of the session, then play; false: play on the session as it stands.
    pub opens: bool,
    pub lengths: [usize; 9],
    pub seed: u32,
    /// The length of the answer buffer.
    pub room: usize,
    pub calls: Vec<u8>,
}

impl Case {
    pub fn buffers(&self) -> Buffers {
        filled(self.seed, self.lengths)
    }

    /// Each number a u32, little-endian: the session's fields, opens, lengths, seed, room, the bytes of calls; then those bytes.
    pub fn write(&self, out: &mut Vec<u8>) {
        let mut numbers = self.session.fields().to_vec();
        numbers.push(u32::from(self.opens));
        numbers.extend(self.lengths.map(|length| length as u32));
        numbers.extend([self.seed, self.room as u32, self.calls.len() as u32]);
        out.extend(numbers.iter().flat_map(|number| number.to_le_bytes()));
        out.extend(&self.calls);
    }

    pub fn within_limits(&self) -> Result<(), String> {
        let short = self.lengths.iter().zip(MOST).all(|(&length, most)| length <= most);
        let (room, calls, seed) = (self.room, self.calls.len(), self.seed);
        if short && room <= MOST_ANSWERS && calls <= MOST_CALLS && seed < MOST_SEEDS {
            return Ok(());
        }
        Err(format!(
            "lengths {:?} (most {MOST:?}), {room} answers ({MOST_ANSWERS}), {calls} bytes of calls ({MOST_CALLS}), seed {seed} (below {MOST_SEEDS})",
            self.lengths
        ))
    }

    /// The case's line, after its number. Behind the session's digest stand number and class of its kept class.
    pub fn played(&self, tally: &mut Tally) -> String {
        let (mut buffers, mut answers) = (self.buffers(), vec![UNANSWERED; self.room]);
        let (mut session, mut open) = (self.session, String::from("-"));
        if self.opens {
            let answer = calls::open(session.shape, session.side, session.limits, session.time, &mut buffers);
            tally.add(answer.number);
            open = answer.number.to_string();
            session = answer.session;
        }
        let mut count = 0;
        if !self.opens || open == "0" {
            (session, count) = play(session, &self.calls, &mut answers, &mut buffers);
        }
        tally.calls += count;
        answers[..count].iter().for_each(|&number| tally.add(number));
        let (of_session, kept) = (of_u32(&session.fields()), calls::kept_class(session));
        let digests = digests(&answers, &buffers).map(|(name, digest)| format!("{name} {digest}")).join(", ");
        format!("open {open}, calls {count}, session {of_session} K{}.{}, {digests}", kept.number, kept.value)
    }
}

fn digests(answers: &[u32], b: &Buffers) -> [(&'static str, u64); 10] {
    [
        ("answers", of_u32(answers)),
        ("backward", of_u8(&b.backward)),
        ("forward", of_u8(&b.forward)),
        ("table", of_u8(&b.table)),
        ("grid", of_i32(&b.grid)),
        ("xs", of_u16(&b.xs)),
        ("ys", of_u16(&b.ys)),
        ("averages", of_u8(&b.averages)),
        ("map", of_u8(&b.map)),
        ("history", of_u8(&b.history)),
    ]
}

/// How many calls were played, and how often each number was answered, opens included.
#[derive(Default)]
pub struct Tally {
    calls: usize,
    numbers: [usize; 12],
}

impl Tally {
    fn add(&mut self, number: u32) {
        self.numbers[number as usize] += 1;
    }

    pub const fn times(&self, number: u32) -> usize {
        self.numbers[number as usize]
    }
}

impl Display for Tally {
    fn fmt(&self, out: &mut Formatter) -> fmt::Result {
        write!(out, "{} calls, refusals", self.calls)?;
        (2..=11).try_for_each(|number| write!(out, " {number}:{}", self.numbers[number]))
    }
}
