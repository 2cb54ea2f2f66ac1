//! Both forms of the session agree: after every call of long drawn lists, the calls on bytes leave what the machine's layout says.

use draw::Draw;
use model::calls;
use model::drawn::{Mix, buffers, call, filled, lengths, limits, shape, time};
use model::fields::{Class, Sets, quality};
use model::history::{SLOT, depth, past_runs};
use model::layout::{Opened, lay};
use model::list::{Call, play, write};
use model::machine::Machine;
use model::session::{Buffers, Session};

struct Pair {
    opened: Opened,
    machine: Machine,
    session: Session,
    buffers: Buffers,
    given: Buffers,
}

impl Pair {
    fn open(draw: &mut Draw, most: i32, history: usize) -> Self {
        let shape = shape(draw, most);
        let opened = Opened { shape, side: draw.pick(&[1, 2]), limits: limits(draw) };
        let time = time(draw);
        let lengths = lengths(draw, &shape, history);
        let given = buffers(draw, lengths);
        let mut buffers = given.clone();
        let answer = calls::open(shape, opened.side, opened.limits, time, &mut buffers);
        assert_eq!(answer.number, 0);
        let machine = Machine::open(depth(history), shape, time);
        Self { opened, machine, session: answer.session, buffers, given }
    }

    fn step(&mut self, call: &Call) -> u32 {
        let answer = call.run(self.session, &mut self.buffers);
        assert_eq!(answer.number, self.machine.step(call), "{call:?}");
        self.session = answer.session;
        answer.number
    }

    fn check(&self) {
        let (session, buffers) = lay(&self.opened, &self.machine, &self.given);
        assert_eq!(self.session, session);
        assert!(self.buffers == buffers, "{:?} {:?}", self.buffers, buffers);
        assert_eq!(calls::kept_class(self.session), self.class());
        // or else a redo would bring back more than the undo before it took
        let ends = self.machine.past.back().zip(self.machine.future.front());
        assert!(ends.is_none_or(|(last, first)| last.gesture != first.gesture), "{ends:?}");
        let cells = self.opened.shape.grid_size();
        let sum = self.buffers.grid[..cells].iter().fold(0u32, |sum, &cell| sum.wrapping_add(cell.cast_unsigned()));
        let area = self.opened.shape.area() as usize * self.opened.shape.blocks();
        assert_eq!(sum, area as u32);
    }

    /// The class of the vectors, from a walk over them.
    fn class(&self) -> Class {
        let (Opened { shape, side, limits }, b) = (&self.opened, &self.buffers);
        let class = quality(shape, *side, limits, Sets { backward: &b.backward, forward: &b.forward }, &b.averages);
        assert_eq!(class.number, 0);
        class
    }

    /// Undoes every past run, then does as many again: no call is refused, and every byte is as it was.
    fn back_and_forth(&mut self) {
        let (session, buffers) = (self.session, self.buffers.clone());
        let runs = past_runs(&buffers.history, session.past as usize);
        for (call, past) in [(Call::Undo, 0), (Call::Redo, session.past)] {
            for _ in 0..runs {
                assert_eq!(self.step(&call), 0);
            }
            assert_eq!(self.session.past, past);
        }
        assert!(self.session == session && self.buffers == buffers);
    }
}

#[test]
fn every_call_of_short_lists() {
    let mut draw = Draw::new(11);
    let (mut seen, mut pools, mut classes) = ([0u32; 12], [0u32; 12], [0u32; 4]);
    for turn in 0..1500 {
        let bytes = draw.pick(&[SLOT, 2 * SLOT - 1, 2 * SLOT, 5 * SLOT + 1, 40 * SLOT]);
        let mut pair = Pair::open(&mut draw, if turn % 50 == 0 { 17 } else { 4 }, bytes);
        pair.check();
        for _ in 0..40 {
            let call = call(&mut draw, &pair.opened.shape, &Mix::EVEN);
            let number = pair.step(&call) as usize;
            seen[number] += 1;
            pools[number] += u32::from(matches!(call, Call::Pool { .. }));
            pair.check();
            classes[pair.class().value as usize] += 1;
        }
        pair.back_and_forth();
        pair.check();
    }
    assert!(classes.iter().all(|&times| times > 0), "{classes:?}");
    for (number, times) in seen.into_iter().enumerate() {
        assert_eq!(times > 0, matches!(number, 0 | 4..=10), "number {number}: {times} times");
    }
    for (number, times) in pools.into_iter().enumerate() {
        assert_eq!(times > 0, matches!(number, 0 | 4..=6), "pool, number {number}: {times} times");
    }
}

#[test]
fn long_lists() {
    let mut draw = Draw::new(12);
    for bytes in [SLOT, 2 * SLOT + 7, 100 * SLOT, 4096 * SLOT, 4100 * SLOT] {
        let mut pair = Pair::open(&mut draw, 3, bytes);
        let mix = Mix { take: 0, pool: 0, put: 30, undo: 2, redo: 2, retime: 1, bad: 2 };
        for turn in 0..6000 {
            let call = call(&mut draw, &pair.opened.shape, &mix);
            pair.step(&call);
            if turn % 500 == 0 {
                pair.check();
            }
        }
        assert!(bytes < 4096 * SLOT || pair.session.past > 3000);
        pair.back_and_forth();
        pair.check();
    }
}

#[test]
fn a_list_of_bytes_is_its_calls() {
    let mut draw = Draw::new(13);
    for _ in 0..200 {
        let mut pair = Pair::open(&mut draw, 4, 10 * SLOT);
        let list: Vec<Call> = (0..30).map(|_| call(&mut draw, &pair.opened.shape, &Mix::EVEN)).collect();
        let (mut buffers, session) = (pair.buffers.clone(), pair.session);
        let numbers: Vec<u32> = list.iter().map(|call| pair.step(call)).collect();
        let mut answers = [99; 31];
        let (session, count) = play(session, &write(&list), &mut answers, &mut buffers);
        assert_eq!((session, count), (pair.session, 30));
        assert!(answers[..30] == numbers[..] && answers[30] == 99 && buffers == pair.buffers);
    }
}

#[test]
fn a_list_ends_where_it_is_cut() {
    let shape = shape(&mut Draw::new(14), 2);
    let mut lengths = [4000; 9];
    lengths[8] = 5 * SLOT;
    let mut buffers = filled(5, lengths);
    let session = calls::open(shape, 1, model::session::Limits::default(), 0, &mut buffers).session;
    let whole = write(&[Call::Retime(5), Call::Take(vec![1, 2, 3]), Call::Undo]);
    for (list, room, count) in [
        (&whole[..], 9, 3),
        (&whole[..], 2, 2),
        (&whole[..], 0, 0),
        (&whole[..12], 9, 1),
        (&whole[..4], 9, 0),
        (&[3, 3, 0, 3][..], 9, 2),
        (&[3, 7][..], 9, 1),
        (&[3, 6][..], 9, 1),
        (&[6, 0, 0, 0, 0, 0, 0, 0, 0][..], 9, 1),
        (&[6, 1, 0, 0, 0, 2, 0, 0, 0, 9, 9, 9][..], 9, 1),
        (&[6, 1, 0, 0, 0, 2, 0, 0, 0, 9, 9][..], 9, 0),
        (&[6, 255, 255, 255, 255, 1, 0, 0, 0, 9, 9][..], 9, 0),
        (&[1, 255, 255, 255, 255][..], 9, 0),
    ] {
        let mut answers = vec![99; room];
        let played = play(session, list, &mut answers, &mut buffers.clone());
        assert_eq!(played.1, count);
        assert!(answers[count..].iter().all(|&answer| answer == 99));
    }
}
