//! Forged slots one by one, the recorded lists, short ones first, forged runs, and the largest grids.

use draw::Draw;
use model::calls::Put;
use model::drawn::{self, Mix, buffers, lengths};
use model::entry::Entry;
use model::history::{SLOT, Step};
use model::list::Call;
use model::recorded;
use model::session::{Counts, Limits, Session};
use model::shape::{Axis, Shape};

use crate::session::gestures;
use crate::session::scenario::Scenario;

pub fn scenarios(small: bool) -> Box<dyn Iterator<Item = Scenario>> {
    let mut recorded = recorded::cases();
    recorded.retain(|case| !small || case.calls.len() < 6000);
    recorded.sort_by_key(|case| case.calls.len());
    let recorded = recorded.into_iter().map(|case| Scenario::of(&case));
    let all = forged_slots().chain(recorded).chain(gestures::scenarios(small));
    if small { Box::new(all) } else { Box::new(all.chain(large())) }
}

fn shape(grid_w: i32, grid_h: i32, overlap: i32) -> Shape {
    Shape::of_axes(Axis::covering(8, overlap, grid_w, 1), Axis::covering(8, overlap, grid_h, 0), 1)
}

/// Undo and redo on a slot with each side and block about their limits, at every place of a short history. The kept counts stand at their ends.
fn forged_slots() -> impl Iterator<Item = Scenario> {
    let (shape, kept) = (shape(2, 2, 0), Counts { counted: 0, scene: u32::MAX, m2: 4, m1: 5 });
    let sides = [0, 1, 2, 3, 256, 257, u32::MAX];
    let blocks = [0, 3, 4, 5, 256, 65_536, u32::MAX];
    let all = sides.into_iter().flat_map(move |side| blocks.into_iter().map(move |block| (side, block)));
    all.flat_map(move |(side, block)| {
        (0..3).flat_map(move |slot| {
            [(slot + 1, 0), (slot, 1), (slot + 1, 2 - slot), (0, 0)].map(move |(past, future)| {
                let mut draw = Draw::new(71);
                let lengths = lengths(&mut draw, &shape, 3 * SLOT + 1);
                let mut buffers = buffers(&mut draw, lengths);
                let (old, new) = (drawn::entry(&mut draw, &shape), drawn::entry(&mut draw, &shape));
                let at = SLOT * slot as usize;
                let step = Step { block, side, old, new, gesture: 7 };
                buffers.history[at..at + SLOT].copy_from_slice(&step.bytes());
                let limits = Limits::USUAL;
                let session = Session { shape, side: 1 + slot % 2, limits, time: 200, past, future, kept };
                let calls = vec![Call::Undo, Call::Redo, Call::Redo, Call::Undo, Call::Undo];
                Scenario { session, opens: false, buffers, calls }
            })
        })
    })
}

/// A few calls on the largest grids and on long rows and columns.
fn large() -> impl Iterator<Item = Scenario> {
    [(1024, 1024, 0), (1024, 1, 3), (1, 1024, 7), (240, 135, 4)].into_iter().map(|(grid_w, grid_h, overlap)| {
        let mut draw = Draw::new(72);
        let shape = shape(grid_w, grid_h, overlap);
        let lengths = lengths(&mut draw, &shape, 30 * SLOT);
        let buffers = buffers(&mut draw, lengths);
        let last = shape.blocks() as u32 - 1;
        let put = |side, block, Entry { x, y, sad, luma }| Call::Put(Put { side, block, x, y, sad, luma, gesture: 0 });
        let mut calls = vec![Call::Take(drawn::payload(&mut draw, &shape))];
        let [first, second] = drawn::pair(&mut draw, &shape);
        calls.push(Call::Pool { first, second });
        for (side, block) in [(1, 0), (2, last), (2, 0), (1, last), (1, last + 1)] {
            calls.push(put(side, block, drawn::entry(&mut draw, &shape)));
        }
        calls.push(Call::Retime(257));
        let mix = Mix { take: 0, pool: 0, put: 4, undo: 3, redo: 2, retime: 0, bad: 5 };
        calls.extend(drawn::list(&mut draw, &shape, &mix, 12));
        let session = Session { shape, side: 2, limits: Limits::USUAL, time: 256, ..Session::default() };
        Scenario { session, opens: true, buffers, calls }
    })
}
