//! Lists of calls as bytes, and their player. Every number is little-endian.
//!
//! A record begins with its command. 1 take: a u32 length and that many bytes of payload; 2 put: side u32, block u32, x i16, y i16, sad i32, luma,
//! gesture u32; 3 undo; 4 redo; 5 retime: time i32; 6 pool: the u32 lengths of the first and the second payload, then the first's bytes and the second's.
//! An unknown command, a record that is cut short or an answer buffer that is full ends the list there.

use crate::bytes::{i32_at, u32_at};
use crate::calls::{self, Put};
use crate::session::{Answer, Buffers, Session};

#[derive(Clone, PartialEq, Eq, Debug)]
pub enum Call {
    Take(Vec<u8>),
    Put(Put),
    Undo,
    Redo,
    Retime(i32),
    Pool { first: Vec<u8>, second: Vec<u8> },
}

/// The bytes of a put's record.
const PUT: usize = 22;

/// The bytes of a pool's record before its payloads.
const POOL: usize = 9;

fn i16_at(bytes: &[u8], at: usize) -> i16 {
    i16::from_le_bytes([bytes[at], bytes[at + 1]])
}

impl Call {
    pub fn write(&self, out: &mut Vec<u8>) {
        match self {
            Self::Take(payload) => {
                out.push(1);
                out.extend((payload.len() as u32).to_le_bytes());
                out.extend(payload);
            }
            Self::Put(put) => {
                out.push(2);
                out.extend(put.side.to_le_bytes());
                out.extend(put.block.to_le_bytes());
                out.extend(put.x.to_le_bytes());
                out.extend(put.y.to_le_bytes());
                out.extend(put.sad.to_le_bytes());
                out.push(put.luma);
                out.extend(put.gesture.to_le_bytes());
            }
            Self::Undo => out.push(3),
            Self::Redo => out.push(4),
            Self::Retime(time) => {
                out.push(5);
                out.extend(time.to_le_bytes());
            }
            Self::Pool { first, second } => {
                out.push(6);
                out.extend([first, second].iter().flat_map(|payload| (payload.len() as u32).to_le_bytes()));
                out.extend(first);
                out.extend(second);
            }
        }
    }

    /// The first call of a list and the length of its record; none at the list's end.
    pub fn read(list: &[u8]) -> Option<(Self, usize)> {
        match list.first()? {
            1 => {
                let length = u32_at(list, 1)? as usize;
                Some((Self::Take(list.get(5..5 + length)?.to_vec()), 5 + length))
            }
            2 => Some((Self::Put(read_put(list.get(..PUT)?)?), PUT)),
            3 => Some((Self::Undo, 1)),
            4 => Some((Self::Redo, 1)),
            5 => Some((Self::Retime(i32_at(list, 1)?), 5)),
            6 => {
                let middle = POOL + u32_at(list, 1)? as usize;
                let end = middle + u32_at(list, 5)? as usize;
                let (first, second) = list.get(POOL..end)?.split_at(middle - POOL);
                Some((Self::Pool { first: first.to_vec(), second: second.to_vec() }, end))
            }
            _ => None,
        }
    }

    /// The call on a session and its buffers.
    pub fn run(&self, session: Session, buffers: &mut Buffers) -> Answer {
        match self {
            Self::Take(payload) => calls::take(session, payload, buffers),
            Self::Put(put) => calls::put(session, *put, buffers),
            Self::Undo => calls::undo(session, buffers),
            Self::Redo => calls::redo(session, buffers),
            Self::Retime(time) => calls::retime(session, *time, buffers),
            Self::Pool { first, second } => calls::pool(session, first, second, buffers),
        }
    }
}

/// The put of a whole record.
fn read_put(record: &[u8]) -> Option<Put> {
    Some(Put {
        side: u32_at(record, 1)?,
        block: u32_at(record, 5)?,
        x: i16_at(record, 9),
        y: i16_at(record, 11),
        sad: i32_at(record, 13)?,
        luma: record[17],
        gesture: u32_at(record, 18)?,
    })
}

/// The bytes of a list of calls.
pub fn write(calls: &[Call]) -> Vec<u8> {
    let mut out = Vec::new();
    for call in calls {
        call.write(&mut out);
    }
    out
}

/// Plays a list: one number for each call played, further answers stay. The session after it, and how many calls were played.
pub fn play(mut session: Session, list: &[u8], answers: &mut [u32], buffers: &mut Buffers) -> (Session, usize) {
    let (mut at, mut count) = (0, 0);
    while count < answers.len() {
        let Some((call, length)) = Call::read(&list[at..]) else { break };
        let answer = call.run(session, buffers);
        answers[count] = answer.number;
        session = answer.session;
        at += length;
        count += 1;
    }
    (session, count)
}
