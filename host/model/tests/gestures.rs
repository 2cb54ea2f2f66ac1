//! Runs of steps with one gesture (paper 02, 2/14): where they begin and end, the order in which their steps are taken, what refuses them.

use std::collections::{BTreeMap, BTreeSet};

use draw::Draw;
use model::calls::{self, Put};
use model::class::counts;
use model::drawn::{self, Gestures, buffers, entry, filled, lengths, limits, shape, time};
use model::entry::Entry;
use model::history::{SLOT, Step, depth, future_run, past_run, past_runs};
use model::list::{Call, write};
use model::luma::{average, map_byte, score};
use model::planes::pack_block;
use model::scatter::products;
use model::session::{Answer, Buffers, Counts, Limits, Session};
use model::shape::{Axis, Shape, sizes};

fn usual() -> Shape {
    Shape::of_axes(Axis::covering(8, 0, 3, 0), Axis::covering(8, 0, 2, 1), 1)
}

/// A session of its own buffers, after an open.
struct Host {
    session: Session,
    buffers: Buffers,
}

impl Host {
    fn open(history: usize) -> Self {
        let mut lengths = [0; 9];
        lengths.copy_from_slice(&sizes(&usual())[..9]);
        lengths[8] = history;
        let mut buffers = filled(77, lengths);
        let answer = calls::open(usual(), 1, Limits::USUAL, 256, &mut buffers);
        assert_eq!(answer.number, 0);
        Self { session: answer.session, buffers }
    }

    fn call(&mut self, call: &Call) -> u32 {
        let answer = call.run(self.session, &mut self.buffers);
        self.session = answer.session;
        answer.number
    }

    /// A put on side 1.
    fn put(&mut self, block: u32, x: i16, gesture: u32) {
        assert_eq!(self.call(&Call::Put(Put { side: 1, block, x, y: 0, sad: 900, luma: 3, gesture })), 0);
    }

    /// Past and future steps, and the x of block 0.
    fn now(&self) -> (u32, u32, i16) {
        (self.session.past, self.session.future, Entry::at(&self.buffers.backward, 0).x)
    }

    fn undo(&mut self) -> (u32, u32, i16) {
        assert_eq!(self.call(&Call::Undo), 0);
        self.now()
    }

    fn redo(&mut self) -> (u32, u32, i16) {
        assert_eq!(self.call(&Call::Redo), 0);
        self.now()
    }
}

#[test]
fn a_slot_ends_with_the_gesture() {
    assert_eq!([0, 27, 28, 55, 56, 28 * 4096 - 1, 28 * 4096, 28 * 4097].map(depth), [0, 0, 1, 1, 2, 4095, 4096, 4096]);
    assert_eq!((SLOT, sizes(&usual())[8]), (28, 28));
    let mut host = Host::open(3 * SLOT);
    host.put(0, 5, 0x0403_0201);
    assert_eq!(host.buffers.history[..8], [0, 0, 0, 0, 1, 0, 0, 0]);
    assert_eq!(host.buffers.history[16..28], [0, 0, 5, 0, 132, 3, 0, 3, 1, 2, 3, 4]);
    assert!(host.buffers.history[28..].iter().all(|&byte| byte == 0));
    let step = Step::at(&host.buffers.history, 0).unwrap();
    assert_eq!((step.block, step.side, step.new.x, step.gesture), (0, 1, 5, 0x0403_0201));
}

#[test]
fn a_puts_record_ends_with_the_gesture() {
    let put = Put { side: 2, block: 3, x: -1, y: 4, sad: 5, luma: 6, gesture: 0x0403_0201 };
    let record = write(&[Call::Put(put)]);
    assert_eq!(record, [2, 2, 0, 0, 0, 3, 0, 0, 0, 255, 255, 4, 0, 5, 0, 0, 0, 6, 1, 2, 3, 4]);
    assert_eq!(Call::read(&record), Some((Call::Put(put), 22)));
    assert_eq!(Call::read(&record[..21]), None);
}

#[test]
fn a_run_ends_at_the_first_other_number() {
    let mut host = Host::open(10 * SLOT);
    for (x, gesture) in [(1, 5), (2, 5), (3, 7), (4, 5)] {
        host.put(0, x, gesture);
    }
    assert_eq!(past_runs(&host.buffers.history, 4), 3);
    assert_eq!([(); 3].map(|()| host.undo()), [(3, 1, 3), (2, 2, 2), (0, 4, 0)]);
    assert_eq!(host.call(&Call::Undo), 9);
    assert_eq!([(); 3].map(|()| host.redo()), [(2, 2, 2), (3, 1, 3), (4, 0, 4)]);
    assert_eq!(host.call(&Call::Redo), 10);
}

#[test]
fn numbers_that_differ_in_one_bit_are_two_gestures() {
    for bit in 0..32 {
        let mut host = Host::open(4 * SLOT);
        host.put(0, 1, 0x1234_5678);
        host.put(0, 2, 0x1234_5678 ^ 1 << bit);
        assert_eq!(host.undo(), (1, 1, 1), "bit {bit}");
    }
}

#[test]
fn steps_of_one_block_are_taken_back_latest_first() {
    let mut host = Host::open(3 * SLOT);
    for x in [1, 2, 3] {
        host.put(0, x, 8);
    }
    // entries that no put left so, to tell the steps apart
    for slot in 0..3 {
        let step = Step::at(&host.buffers.history, slot).unwrap();
        let old = Entry { x: 10 + slot as i16, ..step.old };
        host.buffers.history[SLOT * slot..][..SLOT].copy_from_slice(&Step { old, ..step }.bytes());
    }
    assert_eq!(past_run(&host.buffers.history, 3).iter().map(|step| step.old.x).collect::<Vec<_>>(), [12, 11, 10]);
    assert_eq!(host.undo(), (0, 3, 10));
    assert_eq!(future_run(&host.buffers.history, 0, 3).iter().map(|step| step.new.x).collect::<Vec<_>>(), [1, 2, 3]);
    assert_eq!(host.redo(), (3, 0, 3));
}

#[test]
fn the_oldest_step_drops_alone_and_cuts_its_gesture_short() {
    let mut host = Host::open(3 * SLOT);
    for (x, gesture) in [(1, 1), (2, 1), (3, 2), (4, 2)] {
        host.put(0, x, gesture);
    }
    assert_eq!((host.now(), past_runs(&host.buffers.history, 3)), ((3, 0, 4), 2));
    // the gesture's first put is past undoing
    assert_eq!([host.undo(), host.undo()], [(1, 2, 2), (0, 3, 1)]);
    assert_eq!([host.redo(), host.redo()], [(1, 2, 2), (3, 0, 4)]);
}

#[test]
fn a_put_joins_the_run_that_its_number_follows() {
    let mut host = Host::open(9 * SLOT);
    for (x, gesture) in [(1, 6), (2, 6), (3, 7), (4, 7)] {
        host.put(0, x, gesture);
    }
    assert_eq!(host.undo(), (2, 2, 2));
    // future is gone, though it began with a 7
    host.put(0, 5, 6);
    assert_eq!(host.now(), (3, 0, 5));
    assert_eq!([host.undo(), host.redo()], [(0, 3, 0), (3, 0, 5)]);
}

/// Six slots: a run of four, and a slot of another gesture on either side.
fn forged(bad: Option<(usize, u32, u32)>) -> Buffers {
    let mut host = Host::open(6 * SLOT);
    for (block, gesture) in [9, 5, 5, 5, 5, 9].into_iter().enumerate() {
        host.put(block as u32 / 2, block as i16 + 1, gesture);
    }
    if let Some((slot, side, block)) = bad {
        let step = Step::at(&host.buffers.history, slot).unwrap();
        host.buffers.history[SLOT * slot..][..SLOT].copy_from_slice(&Step { side, block, ..step }.bytes());
    }
    host.buffers
}

#[test]
fn a_bad_slot_refuses_the_run_that_it_is_in_and_nothing_is_written() {
    let session = Host::open(6 * SLOT).session;
    let undone = (Call::Undo, Session { past: 5, future: 1, ..session }, Session { past: 1, future: 5, ..session });
    let redone = (Call::Redo, Session { past: 1, future: 5, ..session }, Session { past: 5, future: 1, ..session });
    for (call, before, after) in [undone, redone] {
        for (side, block) in [(0, 0), (3, 0), (257, 0), (1, 6), (2, 6), (1, u32::MAX)] {
            for slot in 0..6 {
                let given = forged(Some((slot, side, block)));
                let mut buffers = given.clone();
                let answer = call.run(before, &mut buffers);
                if (1..5).contains(&slot) {
                    assert_eq!(answer, Answer { number: 11, session: before }, "{call:?}, slot {slot}");
                    assert!(buffers == given);
                } else {
                    let session = Session { kept: answer.session.kept, ..after };
                    assert_eq!(answer, Answer { number: 0, session }, "{call:?}, slot {slot}");
                    assert!(buffers.history == given.history && buffers.backward != given.backward);
                }
            }
        }
    }
}

#[test]
fn a_run_does_not_pass_from_one_list_into_the_other() {
    let mut host = Host::open(6 * SLOT);
    for x in 1..=6 {
        host.put(0, x, 5);
    }
    // counts that no calls leave: past's last and future's first gesture are the same
    for (past, future) in [(2, 4), (4, 1), (1, 2)] {
        let forged = Session { past, future, ..host.session };
        for (call, counts) in [(Call::Undo, (0, past + future)), (Call::Redo, (past + future, 0))] {
            let answer = call.run(forged, &mut host.buffers.clone());
            assert_eq!((answer.number, answer.session.past, answer.session.future), (0, counts.0, counts.1));
        }
    }
}

#[test]
fn counts_are_judged_before_the_run() {
    let mut buffers = forged(Some((3, 0, 0)));
    let session = Session { past: 7, future: 0, ..Host::open(6 * SLOT).session };
    for (past, future, undo, redo) in [
        (0, 0, 9, 10),
        (0, 7, 9, 11),
        (7, 0, 11, 10),
        (6, 1, 11, 11),
        (u32::MAX, u32::MAX, 11, 11),
        (1, u32::MAX, 11, 11),
    ] {
        let session = Session { past, future, ..session };
        let numbers = [calls::undo(session, &mut buffers).number, calls::redo(session, &mut buffers).number];
        assert_eq!(numbers, [undo, redo], "past {past}, future {future}");
    }
}

// ---- the closed form

/// What a block of the shown side gives to the counts.
fn weight(s: &Session, block: usize, b: &Buffers) -> Counts {
    let average = average(&b.table, &b.backward, &b.forward, block);
    counts(&s.limits, [score(Entry::at(b.set(s.side), block).sad, average)])
}

/// A run in one go: each block gets, on each side, what the last of the steps taken there gives. The counts, and the buffers.
fn at_once(s: &Session, given: &[(u32, u32, Entry)], before: &Buffers) -> (Counts, Buffers) {
    let last: BTreeMap<(u32, u32), Entry> = given.iter().map(|&(side, block, new)| ((side, block), new)).collect();
    let mut b = before.clone();
    for (&(side, block), new) in &last {
        new.put(b.set_mut(side), block as usize);
    }
    let set = b.set(s.side).to_vec();
    for (&(_, block), &new) in last.iter().filter(|((side, _), _)| *side == s.side) {
        let block = block as usize;
        for (cell, product) in products(&s.shape, s.time, block, Entry::at(before.set(s.side), block)) {
            b.grid[cell] = b.grid[cell].wrapping_sub(product as i32);
        }
        for (cell, product) in products(&s.shape, s.time, block, new) {
            b.grid[cell] = b.grid[cell].wrapping_add(product as i32);
        }
        pack_block(&s.shape, &set, block, &mut b.xs, &mut b.ys);
    }
    let mut kept = s.kept;
    for block in last.keys().map(|&(_, block)| block as usize).collect::<BTreeSet<_>>() {
        b.averages[block] = average(&b.table, &b.backward, &b.forward, block);
        b.map[block] = map_byte(&s.limits, &set, &b.averages, block);
        kept = kept.moved(&weight(s, block, before), &weight(s, block, &b));
    }
    (kept, b)
}

/// A session of any counts over damaged buffers, whose slots all have a side and a block of its shape.
fn damaged(draw: &mut Draw) -> (Session, Buffers) {
    let (shape, slots) = (shape(draw, 3), draw.pick(&[1, 2, 5, 17, 60]));
    let lengths = lengths(draw, &shape, slots * SLOT);
    let (mut b, mut gestures) = (buffers(draw, lengths), Gestures::drawn(draw));
    for slot in b.history.chunks_exact_mut(SLOT) {
        let block = draw.between(0, shape.blocks() as i32 - 1).cast_unsigned();
        let (side, old, new) = (draw.pick(&[1, 2]), entry(draw, &shape), entry(draw, &shape));
        slot.copy_from_slice(&Step { block, side, old, new, gesture: gestures.next(draw) }.bytes());
    }
    let past = draw.between(0, slots as i32);
    let future = draw.between(0, slots as i32 - past).cast_unsigned();
    let (side, limits, time) = (draw.pick(&[1, 2]), limits(draw), time(draw));
    let kept = drawn::counts(draw, shape.blocks());
    (Session { shape, side, limits, time, past: past.cast_unsigned(), future, kept }, b)
}

#[test]
fn a_run_taken_step_by_step_is_the_run_at_once() {
    let (mut draw, mut longest, mut twice) = (Draw::new(16), 0, 0);
    for _ in 0..6000 {
        let (s, before) = damaged(&mut draw);
        let (past, future) = (s.past as usize, s.future as usize);
        let undone = past_run(&before.history, past).into_iter().map(|step| (step.side, step.block, step.old));
        let redone =
            future_run(&before.history, past, future).into_iter().map(|step| (step.side, step.block, step.new));
        for (call, run, empty) in [(Call::Undo, undone.collect(), 9), (Call::Redo, redone.collect::<Vec<_>>(), 10)] {
            let mut buffers = before.clone();
            let answer = call.run(s, &mut buffers);
            if run.is_empty() {
                assert_eq!(answer, Answer { number: empty, session: s });
                continue;
            }
            let (kept, expected) = at_once(&s, &run, &before);
            let moved = run.len() as u32;
            let [past, future] = if call == Call::Undo {
                [s.past - moved, s.future + moved]
            } else {
                [s.past + moved, s.future - moved]
            };
            assert_eq!(answer, Answer { number: 0, session: Session { past, future, kept, ..s } });
            assert!(buffers == expected, "{call:?} of {run:?}");
            longest = longest.max(run.len());
            let places: BTreeSet<_> = run.iter().map(|&(side, block, _)| (side, block)).collect();
            twice += u32::from(places.len() < run.len());
        }
    }
    assert!(longest >= 50 && twice > 1000, "{longest} {twice}");
}
