//! Calls that are lent less memory than they are told, for a memory checker to find: it must be seen to be able to.

use std::slice::{from_raw_parts, from_raw_parts_mut};

use boundary::session::{Owned, open, pool};
use model::drawn::payload_of;
use model::entry::Entry;
use model::session::Limits;
use model::shape::{Shape, sizes};
use model::update::BACKWARD;

use crate::boundaries::usual;
use crate::options::Overrun;

pub fn run(what: Overrun) -> Result<(), String> {
    match what {
        Overrun::Read => averaged(false),
        Overrun::Write => averaged(true),
        Overrun::First => pooled([1, 0]),
        Overrun::Second => pooled([0, 1]),
    }
}

/// `avg_luma` on eight blocks: the last byte of the averages (write) or of the table (read) lies outside.
fn averaged(write: bool) -> Result<(), String> {
    let shape = Shape { grid_w: 8, grid_h: 1, ..usual() };
    let set: Vec<u8> = (0..8).flat_map(|_| Entry { luma: 255, ..Entry::default() }.bytes()).collect();
    let table = vec![1u8; if write { 511 } else { 510 }].into_boxed_slice();
    let mut averages = vec![0u8; if write { 7 } else { 8 }].into_boxed_slice();
    // The lengths are wrong on purpose, by one byte; allocators leave room there.
    let (table, averages) =
        unsafe { (from_raw_parts(table.as_ptr(), 511), from_raw_parts_mut(averages.as_mut_ptr(), 8)) };
    told("avg_luma", boundary::field::avg_luma(shape, &set, &set, table, averages))
}

/// `pool` of two payloads, of which one lacks so many bytes and is the one that is kept.
fn pooled(lacks: [usize; 2]) -> Result<(), String> {
    let shape = usual();
    let [backward, forward, _, grid, xs, ys, averages, map, history, _] = sizes(&shape);
    let mut owned = Owned {
        backward: vec![0; backward],
        forward: vec![0; forward],
        table: [1; 511],
        grid: vec![0; grid],
        xs: vec![0; xs],
        ys: vec![0; ys],
        averages: vec![0; averages],
        map: vec![0; map],
        history: vec![0; history],
    };
    let session = open(shape, 1, Limits::USUAL, 256, &mut owned.lend()).session;
    let there = lacks.map(|lack| {
        let set = Entry { sad: 9 - lack as i32, ..Entry::default() }.bytes().repeat(shape.blocks());
        let mut payload = payload_of(&shape, vec![0; BACKWARD], [set.clone(), set]);
        payload.truncate(payload.len() - lack);
        payload.into_boxed_slice()
    });
    let whole = BACKWARD + 8 + 2 * shape.set_size();
    // As above.
    let [first, second] = there.each_ref().map(|payload| unsafe { from_raw_parts(payload.as_ptr(), whole) });
    told("pool", pool(session, first, second, &mut owned.lend()).number)
}

fn told(call: &str, number: u32) -> Result<(), String> {
    if number == 0 { Ok(()) } else { Err(format!("{call} answered {number}")) }
}
