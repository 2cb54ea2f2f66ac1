//! After long lists of calls, refused ones among them, a session's buffers, counts and class are those that the ported calls make
//! of its vectors, and undo and redo, gesture by gesture, give every byte back.

use std::collections::BTreeSet;

use draw::Draw;
use yoltzimur::constants::SLOT_SIZE;
use yoltzimur::{
    BlockVector, Counts, FieldShape, Gesture, LumaTable, SceneLimits, Session, Side, field, payload, sizes,
};

/// What is compared of a session.
#[derive(Clone, Debug, PartialEq)]
struct Seen {
    grid: Vec<i32>,
    xs: Vec<u16>,
    ys: Vec<u16>,
    averages: Vec<u8>,
    map: Vec<u8>,
    kept: Counts,
    class: u32,
}

fn held(s: &Session) -> Seen {
    let (xs, ys) = s.planes();
    Seen {
        grid: s.grid().into(),
        xs: xs.into(),
        ys: ys.into(),
        averages: s.averages().into(),
        map: s.map().into(),
        kept: s.kept(),
        class: s.kept_class().unwrap(),
    }
}

/// The same, made afresh by the ported calls.
fn made(s: &Session, table: &LumaTable) -> Seen {
    let (shape, side, least) = (s.shape(), s.side(), sizes(s.shape()).unwrap());
    let (b, f) = (s.set(Side::Backward), s.set(Side::Forward));
    let mut seen = Seen {
        grid: vec![7; least.grid],
        xs: vec![7; least.xs],
        ys: vec![7; least.ys],
        averages: vec![7; least.averages],
        map: vec![7; least.map],
        kept: Counts::default(),
        class: 7,
    };
    let mut mask = vec![7; least.mask];
    field::cover_mask(shape, side, b, f, 100, 1.0, s.time(), &mut seen.grid, &mut mask).unwrap();
    field::pack(shape, side, b, f, &mut seen.xs, &mut seen.ys).unwrap();
    field::avg_luma(shape, b, f, table, &mut seen.averages).unwrap();
    field::quality_map(shape, side, s.limits(), b, f, &seen.averages, &mut seen.map).unwrap();
    // The limits rise, so that a map byte says what its block counts for.
    let of = |byte: u8| seen.map.iter().filter(|found| **found == byte).count() as u32;
    seen.kept = Counts { counted: of(0) + of(1) + of(2) + of(3), scene: of(3), m2: of(2), m1: of(1) };
    seen.class = field::quality(shape, side, s.limits(), b, f, &seen.averages).unwrap();
    seen
}

fn shape(overlap: i32, pel: i32) -> FieldShape {
    FieldShape {
        flags: 3,
        block_w: 16,
        block_h: 12,
        pel,
        width: 90,
        height: 70,
        overlap_x: overlap,
        overlap_y: overlap,
        grid_w: 6,
        grid_h: 5,
        selector: 0,
    }
}

/// A payload of drawn entries.
fn whole(draw: &mut Draw) -> Vec<u8> {
    let (backward, forward) = (draw.bytes(240), draw.bytes(240));
    payload(shape(0, 1), Some(&backward), Some(&forward)).unwrap()
}

/// The same, now and then cut in its forward half.
fn cut(draw: &mut Draw) -> Vec<u8> {
    let mut bytes = whole(draw);
    if draw.once_in(3) {
        bytes.truncate(draw.between(308, 507) as usize);
    }
    bytes
}

/// A payload, now and then cut, and another; some of its entries have sads that are equal to those of the first.
fn two(draw: &mut Draw) -> [Vec<u8>; 2] {
    let [first, mut second] = [(); 2].map(|()| cut(draw));
    for block in 0..60 {
        let sad = 68 + 8 * block + 4 * (block / 30) + 4;
        if let (Some(from), Some(to), true) = (first.get(sad..sad + 3), second.get_mut(sad..sad + 3), draw.once_in(4)) {
            to.copy_from_slice(from);
        }
    }
    [first, second]
}

/// A call; a put has one of two gestures, so that there are runs of several steps.
fn call(s: &mut Session, draw: &mut Draw) -> bool {
    let side = draw.pick(&[Side::Backward, Side::Forward]);
    match draw.between(0, 12) {
        0 => s.take(&cut(draw)).is_ok(),
        12 => {
            let [first, second] = two(draw);
            s.pool(&first, &second).is_ok()
        }
        1 | 2 => s.retime(draw.between(-70_000, 70_000)).is_ok(),
        3..=5 => s.undo().is_ok(),
        6 | 7 => s.redo().is_ok(),
        _ => {
            let entry = BlockVector {
                x: draw.between(-32_768, 32_767) as i16,
                y: draw.between(-300, 300) as i16,
                sad: draw.between(0, 17_000_000),
                luma: draw.between(0, 255) as u8,
            };
            let turn = Gesture::from(draw.between(0, 1) as u32);
            s.put(side, draw.between(0, 30) as u32, entry, turn).is_ok()
        }
    }
}

/// The gesture of each step, of past and of future.
fn gestures(s: &Session) -> (Vec<u32>, Vec<u32>) {
    let number = |slot: &[u8]| u32::from_le_bytes(slot[24..].try_into().unwrap());
    let all: Vec<u32> = s.history().chunks_exact(SLOT_SIZE).map(number).collect();
    let (past, rest) = all.split_at(s.past() as usize);
    (past.into(), rest[..s.future() as usize].into())
}

/// How many runs of one number a list has.
fn runs(gestures: &[u32]) -> usize {
    gestures.chunk_by(|one, next| one == next).count()
}

fn table() -> LumaTable {
    std::array::from_fn(|sum| (sum / 2) as u8)
}

fn opened(side: Side, overlap: i32, pel: i32) -> Session {
    let limits = SceneLimits { blocks: 50, zero: 200, m1: 6_000_000, m2: 10_000_000, scene: 15_000_000 };
    Session::open(shape(overlap, pel), side, limits, 256, &table(), 9).unwrap()
}

#[test]
fn after_every_call_buffers_counts_and_class_are_those_of_the_vectors() {
    let mut draw = Draw::new(1);
    let mut classes = BTreeSet::new();
    for (side, overlap, pel) in [(Side::Backward, 0, 2), (Side::Forward, 3, 3), (Side::Backward, 7, 64)] {
        let mut s = opened(side, overlap, pel);
        let (mut accepted, mut refused) = (0, 0);
        for _ in 0..2000 {
            if call(&mut s, &mut draw) {
                accepted += 1
            } else {
                refused += 1
            }
            let held = held(&s);
            assert_eq!(held, made(&s, &table()));
            classes.insert(held.class);
        }
        assert!(accepted > 500 && refused > 100, "{accepted} accepted, {refused} refused");
    }
    assert_eq!(classes, BTreeSet::from([0, 1, 2, 3]));
}

#[test]
fn undo_and_redo_give_every_byte_back() {
    let mut draw = Draw::new(2);
    let mut s = opened(Side::Forward, 2, 1);
    let (mut undone, mut steps) = (0, 0);
    for _ in 0..600 {
        call(&mut s, &mut draw);
        let before = format!("{s:?}");
        let (past, future) = gestures(&s);
        assert!(past.is_empty() || past.last() != future.first(), "a run in both lists");
        undone += runs(&past);
        steps += past.len();
        for _ in 0..runs(&past) {
            s.undo().unwrap();
        }
        assert_eq!(s.past(), 0);
        for _ in 0..runs(&past) {
            s.redo().unwrap();
        }
        assert_eq!(format!("{s:?}"), before);
    }
    assert!(undone > 300 && steps > undone + 100, "{undone} gestures of {steps} steps");
}

/// What stood in each of the five and in the counts before a put is not what the ported calls make after it.
#[test]
fn a_buffer_or_count_that_a_put_left_as_it_was_would_differ() {
    let mut s = opened(Side::Backward, 0, 1);
    s.take(&whole(&mut Draw::new(5))).unwrap();
    let before = held(&s);
    let BlockVector { x, y, luma, .. } = s.entry(Side::Backward, 3).unwrap();
    let other = |v: i16| if v == 5 { 6 } else { 5 };
    // At any average a sad of 0 maps to 255, and one of 1000 to 0.
    let sad = if before.map[3] == 0 { 0 } else { 1000 };
    let entry = BlockVector { x: other(x), y: other(y), sad, luma: luma ^ 128 };
    s.put(Side::Backward, 3, entry, Gesture::from(0)).unwrap();
    let after = made(&s, &table());
    assert_ne!(before.grid, after.grid);
    assert_ne!(before.xs, after.xs);
    assert_ne!(before.ys, after.ys);
    assert_ne!(before.averages, after.averages);
    assert_ne!(before.map, after.map);
    assert_ne!(before.kept, after.kept);
}
