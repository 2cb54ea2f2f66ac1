//! Pools of two payloads after an accepted open (paper 02, 3/14): which entries are kept, refusals of either payload, what is ignored of one,
//! pools among all other calls, and records that are cut short.

use crate::calls::Put;
use crate::drawn::{self, Mix, lengths, limits, pair, payload, payload_of};
use crate::entry::Entry;
use crate::history::SLOT;
use crate::list::Call;
use crate::pooled::pooled_number;
use crate::session::Limits;
use crate::shape::{Axis, Shape, sizes};
use crate::update::{BACKWARD, forward_place};
use draw::Draw;

use super::case::Case;
use super::long::{self, field, given};
use super::tape::Tape;

pub fn cases() -> Vec<Case> {
    let mut draw = Draw::new(26);
    let mut out = kept(&mut draw);
    out.extend(FLAGS.map(|flags| refused(&mut draw, flags)));
    out.extend([0, 1, 2, 3].map(|flags| ignored(&mut draw, flags)));
    out.extend((0..16).map(|turn| long::mixed(&mut draw, turn, &MIX, 80)));
    out.extend([(32, 16), (512, 1)].map(|grid| wide(&mut draw, grid)));
    out.extend(ends(&mut draw));
    out
}

/// Every pair of the two bits, with the others clear and set.
const FLAGS: [i32; 8] = [0, 1, 2, 3, -4, -3, -2, -1];

/// Many pools among all other calls.
pub const MIX: Mix = Mix { take: 2, pool: 4, put: 20, undo: 8, redo: 6, retime: 2, bad: 25 };

pub fn pool(first: &[u8], second: &[u8]) -> Call {
    Call::Pool { first: first.to_vec(), second: second.to_vec() }
}

fn shape(flags: i32, grid_w: i32, grid_h: i32) -> Shape {
    field(Axis::covering(8, 2, grid_w, 1), Axis::covering(4, 0, grid_h, 0), 1, 0, flags)
}

fn put(draw: &mut Draw, shape: &Shape, gesture: u32) -> Call {
    Call::Put(Put { gesture, ..drawn::put(draw, shape, false) })
}

/// A tape after an open, a take, and puts of which one is undone: both lists have steps.
fn begun(draw: &mut Draw, shape: Shape, side: u32) -> Tape {
    let lengths = lengths(draw, &shape, 6 * SLOT + 9);
    begun_on(draw, shape, side, lengths)
}

fn begun_on(draw: &mut Draw, shape: Shape, side: u32, lengths: [usize; 9]) -> Tape {
    let session = given(shape, side, limits(draw), drawn::time(draw));
    let mut tape = Tape::opened(session, lengths, draw.between(0, 999).cast_unsigned());
    tape.push(&Call::Take(payload(draw, &shape)));
    for gesture in [1, 1, 2] {
        tape.push(&put(draw, &shape, gesture));
    }
    tape.push(&Call::Undo);
    tape
}

// ---- what is kept

/// The sads of a block in two payloads: ties, one byte that differs, and both sides of each bit that a narrower or a signed number ends with.
const SADS: [[i32; 2]; 16] = [
    [0, 0],
    [0x55_5555, 0x55_5555],
    [0xFF_FFFF, 0xFF_FFFF],
    [0, 1],
    [0x12_3456, 0x12_3457],
    [0x12_3456, 0x12_3556],
    [0x12_3456, 0x13_3456],
    [0x7F, 0x80],
    [0xFF, 0x100],
    [0x7FFF, 0x8000],
    [0xFFFF, 0x1_0000],
    [0x7F_FFFF, 0x80_0000],
    [0x80_0000, 0x80_0001],
    [0, 0xFF_FFFF],
    [0x01_FFFF, 0x02_0000],
    [0xFF_FFFE, 0xFF_FFFF],
];

/// A set of each payload, that of the other side by another turn. The smaller sad is the first's and the second's from block to block. It has the
/// greater luma; where both are equal the first has.
fn sets(turn: usize) -> [Vec<u8>; 2] {
    let entry = |block: usize, whose: usize| {
        let sads = SADS[(block + turn) % SADS.len()];
        let place = (block + turn + whose) % 2;
        let greater = if sads[0] == sads[1] { whose == 0 } else { place == 0 };
        let (x, y) = (block as i16 - 9, 5 - block as i16);
        let (x, y) = if whose == 0 { (x, y) } else { (-40 - x, 30 + y) };
        Entry { x, y, sad: sads[place], luma: if greater { 240 } else { 3 } }
    };
    [0, 1].map(|whose| (0..SADS.len()).flat_map(|block| entry(block, whose).bytes()).collect())
}

/// A pool of such payloads, in either order, at each pair of flag bits and each shown side; then a few edits.
fn kept(draw: &mut Draw) -> Vec<Case> {
    let mut out = Vec::new();
    for (turn, flags) in FLAGS.into_iter().enumerate() {
        for other_first in [false, true] {
            let shape = shape(flags, 4, 4);
            let side = if other_first { 1 + turn as u32 / 4 } else { 2 - turn as u32 / 4 };
            let mut tape = begun(draw, shape, side);
            let ([a, b], [c, d]) = (sets(0), sets(5));
            let mut of_sets = |sets| payload_of(&shape, draw.bytes(BACKWARD), sets);
            let (first, second) = (of_sets([a, c]), of_sets([b, d]));
            tape.push(&if other_first { pool(&second, &first) } else { pool(&first, &second) });
            tape.extend(&[Call::Undo, Call::Redo, put(draw, &shape, 5), Call::Undo]);
            out.push(tape.finish(1));
        }
    }
    out
}

// ---- refusals

fn changed(payload: &[u8], byte: usize) -> Vec<u8> {
    let mut out = payload.to_vec();
    out[byte] ^= 1;
    out
}

/// A payload that lacks the last byte of each part, and one with a byte of each checked number changed.
fn spoiled(shape: &Shape, whole: &[u8]) -> Vec<Vec<u8>> {
    let (forward, set) = (forward_place(shape), shape.set_size());
    let ends = [1, 4, 8, 12, BACKWARD + 4, BACKWARD + 4 + set, forward + 4, forward + 4 + set];
    let cut = ends.map(|end| whole[..end - 1].to_vec());
    let bytes = [0, 7, 9, BACKWARD, BACKWARD + 3, forward, forward + 3].map(|byte| changed(whole, byte));
    cut.into_iter().chain(bytes).collect()
}

/// One payload for each number: by 4, 5 and 6 where these are asked for.
fn by_number(shape: &Shape, whole: &[u8]) -> [Vec<u8>; 3] {
    [4, BACKWARD, forward_place(shape)].map(|byte| changed(whole, byte))
}

/// Every pool is refused: by the first payload, by the second, by both. Edits between them find what was there before; no later call covers
/// what one of them wrote.
fn refused(draw: &mut Draw, flags: i32) -> Case {
    let shape = shape(flags, 2, 1);
    let mut tape = begun(draw, shape, 1 + (flags & 1).cast_unsigned());
    let [first, second] = pair(draw, &shape);
    let mut pairs: Vec<[Vec<u8>; 2]> = Vec::new();
    for bad in spoiled(&shape, &first) {
        pairs.extend([[bad.clone(), second.clone()], [second.clone(), bad]]);
    }
    for a in by_number(&shape, &first) {
        pairs.extend(by_number(&shape, &second).map(|b| [a.clone(), b]));
    }
    let edits = [Call::Redo, Call::Undo, put(draw, &shape, 7)];
    let refused = pairs.iter().filter(|[first, second]| pooled_number(&shape, first, second) != 0);
    for ([first, second], edit) in refused.zip(edits.iter().cycle()) {
        tape.push(&pool(first, second));
        tape.push(edit);
    }
    tape.back_and_forth();
    tape.finish(0)
}

/// Accepted: payloads that end with their last flagged byte, that are wrong in an unflagged half, that differ where bytes are ignored, that
/// go on behind their end; a payload with itself. Between them edits, and at the end one of each.
fn ignored(draw: &mut Draw, flags: i32) -> Case {
    let shape = shape(flags, 2, 2);
    let mut tape = begun(draw, shape, 1 + flags.cast_unsigned() / 2);
    let [first, second] = pair(draw, &shape);
    let mut others = spoiled(&shape, &first);
    others.extend([12, 63].map(|byte| changed(&first, byte)));
    others.extend([[&first[..], &[9; 5]].concat(), first.clone(), second.clone()]);
    for other in others.iter().filter(|other| pooled_number(&shape, other, &second) == 0) {
        tape.push(&pool(other, &second));
        tape.extend(&[put(draw, &shape, 3), put(draw, &shape, 3), Call::Undo, Call::Redo]);
        tape.push(&pool(&second, other));
        tape.push(&put(draw, &shape, 4));
    }
    tape.back_and_forth();
    tape.finish(0)
}

// ---- many blocks, and lists that end

/// As many blocks as the program has room for, in buffers without surplus; of more than a row, the last pool is refused for its very last byte.
fn wide(draw: &mut Draw, (grid_w, grid_h): (i32, i32)) -> Case {
    let shape = shape(3, grid_w, grid_h);
    let mut lengths = [0; 9];
    lengths.copy_from_slice(&sizes(&shape)[..9]);
    lengths[8] = 6 * SLOT;
    let mut tape = begun_on(draw, shape, 1 + grid_h as u32 % 2, lengths);
    let [first, second] = pair(draw, &shape);
    tape.push(&pool(&first, &second));
    tape.extend(&[put(draw, &shape, 1), put(draw, &shape, 1), Call::Retime(-257)]);
    if grid_h > 1 {
        tape.push(&pool(&second, &first[..first.len() - 1]));
    }
    tape.back_and_forth();
    tape.finish(0)
}

/// Lists that end with a pool's record that is cut short, also where the sum of its two lengths modulo 2^32 would fit; then two empty payloads.
fn ends(draw: &mut Draw) -> Vec<Case> {
    let shape = shape(3, 1, 1);
    let lengths = lengths(draw, &shape, 2 * SLOT);
    let mut tape = Tape::opened(given(shape, 2, Limits::USUAL, 256), lengths, 31);
    let [first, second] = pair(draw, &shape);
    tape.extend(&[pool(&first, &second), put(draw, &shape, 0)]);
    let whole = tape.finish(4);
    let records: [&[u8]; 9] = [
        &[6],
        &[6, 0, 0, 0, 0],
        &[6, 0, 0, 0, 0, 0, 0, 0],
        &[6, 2, 0, 0, 0, 0, 0, 0, 0, 9],
        &[6, 0, 0, 0, 0, 2, 0, 0, 0, 9],
        &[6, 1, 0, 0, 0, 2, 0, 0, 0, 9, 9],
        &[6, 255, 255, 255, 255, 1, 0, 0, 0, 9, 9],
        &[6, 255, 255, 255, 255, 255, 255, 255, 255, 9],
        &[6, 0, 0, 0, 0, 0, 0, 0, 0, 3],
    ];
    records.map(|record| Case { calls: [&whole.calls[..], record].concat(), ..whole.clone() }).to_vec()
}
