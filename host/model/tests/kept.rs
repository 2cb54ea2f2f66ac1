//! The counts that a session keeps: forged ones are moved as right ones are, modulo 2^32, whatever the averages hold; and what the kept class refuses.

use draw::Draw;
use model::calls::{self, kept_class};
use model::drawn::{Mix, buffers, call, lengths, limits, shape, time};
use model::fields::Class;
use model::history::SLOT;
use model::list::Call;
use model::session::{Counts, Limits, Session};
use model::shape::{Axis, Shape};

/// Counts that are off by so much, modulo 2^32.
fn off(kept: &Counts, by: &Counts) -> Counts {
    kept.moved(&Counts::default(), by)
}

/// How often each count passed either end.
#[derive(Default)]
struct Passed {
    upper: [u32; 4],
    lower: [u32; 4],
}

impl Passed {
    /// The forged counts before and after a call, and the right ones.
    fn see(&mut self, forged: [&Counts; 2], right: [&Counts; 2]) {
        let ([before, after], [from, to]) = (forged.map(Counts::fields), right.map(Counts::fields));
        for at in 0..4 {
            self.upper[at] += u32::from(from[at] < to[at] && before[at] > after[at]);
            self.lower[at] += u32::from(from[at] > to[at] && before[at] < after[at]);
        }
    }
}

#[test]
fn forged_counts_are_moved_as_right_ones_are() {
    let (mut draw, mut passed) = (Draw::new(15), Passed::default());
    for _ in 0..1500 {
        let shape = shape(&mut draw, 4);
        let lengths = lengths(&mut draw, &shape, 10 * SLOT);
        let mut given = buffers(&mut draw, lengths);
        let side = draw.pick(&[1, 2]);
        let mut right = calls::open(shape, side, limits(&mut draw), time(&mut draw), &mut given).session;
        let (mut forged, mut damaged, mut by) = (right, given.clone(), Counts::default());
        for turn in 0..40 {
            if turn % 10 == 0 {
                by = Counts::from_fields([(); 4].map(|()| draw.pick(&[0, u32::MAX, u32::MAX - 1, 1 << 31])));
                forged.kept = off(&right.kept, &by);
            }
            // the averages are no part of the counts
            damaged.averages = draw.bytes(lengths[6]);
            let call = call(&mut draw, &shape, &Mix::EVEN);
            let (a, b) = (call.run(right, &mut given), call.run(forged, &mut damaged));
            let renews = match call {
                Call::Take(_) => a.number == 0 || (a.number == 6 && shape.has_backward()),
                Call::Pool { .. } => a.number == 0,
                _ => false,
            };
            if renews {
                by = Counts::default();
            }
            assert_eq!((b.number, b.session), (a.number, Session { kept: off(&a.session.kept, &by), ..a.session }));
            if !matches!(call, Call::Take(_) | Call::Pool { .. }) {
                passed.see([&forged.kept, &b.session.kept], [&right.kept, &a.session.kept]);
            }
            (right, forged) = (a.session, b.session);
        }
    }
    assert!(passed.upper.iter().chain(&passed.lower).all(|&times| times > 0), "{:?} {:?}", passed.upper, passed.lower);
}

fn session() -> Session {
    let axis = Axis::covering(8, 0, 3, 0);
    let shape = Shape::of_axes(axis, axis, 1);
    Session { shape, side: 1, limits: Limits::USUAL, time: 256, ..Session::default() }
}

#[test]
fn the_kept_class_is_refused_by_2_8_7_and_12_in_this_order() {
    for mixture in 0..16 {
        let bad = |at: u32| mixture >> at & 1 == 1;
        let mut session = session();
        if bad(0) {
            session.shape.pel = 65;
        }
        if bad(1) {
            session.side = 0;
        }
        if bad(2) {
            session.time = 65_536;
        }
        if bad(3) {
            session.kept.m1 = 10;
        }
        let number = [2, 8, 7, 12].into_iter().zip(0..).find(|&(_, at)| bad(at)).map_or(0, |(number, _)| number);
        let value = if number == 0 { 3 } else { 0 };
        assert_eq!(kept_class(session), Class { number, value }, "{session:?}");
    }
}

#[test]
fn each_count_is_judged_by_n_alone() {
    for at in 0..4 {
        for (count, number) in [(0, 0), (9, 0), (10, 12), (1 << 31, 12), (u32::MAX, 12)] {
            let mut kept = [1; 4];
            kept[at] = count;
            // the step counts may be anything
            let session = Session { past: u32::MAX, future: 1, kept: Counts::from_fields(kept), ..session() };
            assert_eq!(kept_class(session).number, number, "{session:?}");
        }
    }
}

#[test]
fn a_share_that_wraps_is_signed() {
    let class = |blocks: i32, counted: u32| {
        let limits = Limits { blocks, ..Limits::USUAL };
        kept_class(Session { limits, kept: Counts { counted, scene: 0, m2: 2, m1: 5 }, ..session() }).value
    };
    // 2 × (2^31 - 1) is -2 modulo 2^32 and 3 × (2^31 - 1) 2^31 - 3; 2 × -2^31 is 0 and 3 × -2^31 the least number
    assert_eq!([(i32::MAX, 2), (i32::MAX, 3), (i32::MIN, 2), (i32::MIN, 3)].map(|(b, c)| class(b, c)), [3, 0, 3, 3]);
    // shares of 0, 1, 2, 3, 7 and 8 blocks
    assert_eq!([11, 12, 29, 34, 79, 89].map(|blocks| class(blocks, 9)), [3, 2, 2, 1, 1, 0]);
}
