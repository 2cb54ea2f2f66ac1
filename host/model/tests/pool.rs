//! Two payloads pooled (paper 02, 3/14): which entries are kept, in which order numbers are answered, and that a refused pool writes nothing.

use draw::Draw;
use model::calls::{self, Put};
use model::drawn::{buffers, counts, damaged_pair, filled, lengths, limits, pair, payload_of, shape, time};
use model::entry::Entry;
use model::history::SLOT;
use model::list::{Call, write};
use model::session::{Answer, Buffers, Counts, Limits, Session};
use model::shape::{Axis, Shape, sizes};
use model::update::{BACKWARD, forward_place, payload_number};

/// Three blocks.
fn usual(flags: i32) -> Shape {
    Shape { flags, ..Shape::of_axes(Axis::covering(8, 0, 3, 0), Axis::covering(8, 0, 1, 1), 1) }
}

/// A session after an open, with one past and one future step, and its buffers.
fn begun(flags: i32) -> (Session, Buffers) {
    let mut lengths = [0; 9];
    lengths.copy_from_slice(&sizes(&usual(flags))[..9]);
    lengths[8] = 4 * SLOT + 1;
    let mut b = filled(77, lengths);
    let mut session = calls::open(usual(flags), 1, Limits::USUAL, 256, &mut b).session;
    for (block, gesture) in [(0, 1), (2, 2)] {
        let put = Put { side: 1 + block % 2, block, x: 5, y: -1, sad: 900, luma: 3, gesture };
        session = calls::put(session, put, &mut b).session;
    }
    (calls::undo(session, &mut b).session, b)
}

/// A payload whose entries are given, the same on both sides.
fn of_entries(flags: i32, entries: &[Entry]) -> Vec<u8> {
    let set: Vec<u8> = entries.iter().flat_map(Entry::bytes).collect();
    payload_of(&usual(flags), vec![0; BACKWARD], [set.clone(), set])
}

fn set_of(b: &Buffers, side: u32) -> [Entry; 3] {
    [0, 1, 2].map(|block| Entry::at(b.set(side), block))
}

// ---- what is kept

#[test]
fn the_smaller_sad_is_kept_whole_and_at_a_tie_the_first() {
    for (sads, second_kept) in [
        ([0, 0], false),
        ([0xFF_FFFF, 0xFF_FFFF], false),
        ([0, 1], false),
        ([1, 0], true),
        ([0xFF, 0x100], false),
        ([0x100, 0xFF], true),
        ([0xFFFF, 0x1_0000], false),
        ([0x1_0000, 0xFFFF], true),
        ([0x7F_FFFF, 0x80_0000], false),
        ([0x80_0000, 0x7F_FFFF], true),
        ([0xFF_FFFF, 0], true),
    ] {
        // lumas would turn the order, either way
        for lumas in [[0, 255], [255, 0], [9, 9]] {
            let first = Entry { x: 1, y: -2, sad: sads[0], luma: lumas[0] };
            let second = Entry { x: -300, y: 400, sad: sads[1], luma: lumas[1] };
            let (session, mut b) = begun(3);
            let payloads = [first, second].map(|entry| of_entries(3, &[entry; 3]));
            assert_eq!(calls::pool(session, &payloads[0], &payloads[1], &mut b).number, 0);
            let kept = if second_kept { second } else { first };
            assert_eq!([set_of(&b, 1), set_of(&b, 2)], [[kept; 3]; 2], "{sads:?} {lumas:?}");
        }
    }
}

#[test]
fn each_block_and_each_side_has_its_own_choice() {
    let entry = |x, sad| Entry { x, y: 0, sad, luma: 1 };
    let bytes = |entries: [Entry; 3]| entries.iter().flat_map(Entry::bytes).collect::<Vec<u8>>();
    let halves = [
        [[entry(1, 5), entry(2, 6), entry(3, 7)], [entry(11, 9), entry(12, 0), entry(13, 4)]],
        [[entry(4, 6), entry(5, 5), entry(6, 7)], [entry(14, 8), entry(15, 1), entry(16, 3)]],
    ];
    let [first, second] = halves.map(|sides| payload_of(&usual(3), vec![7; BACKWARD], sides.map(bytes)));
    let (session, mut b) = begun(3);
    assert_eq!(calls::pool(session, &first, &second, &mut b).number, 0);
    assert_eq!(set_of(&b, 1).map(|entry| entry.x), [1, 5, 3]);
    assert_eq!(set_of(&b, 2).map(|entry| entry.x), [14, 12, 16]);
}

#[test]
fn an_unflagged_side_stays_and_all_is_made_afresh_all_the_same() {
    let entries = [Entry { x: 3, y: 4, sad: 5, luma: 6 }; 3];
    for flags in [0, 1, 2, 3, -4, -3, -2, -1] {
        let (session, given) = begun(flags);
        let payload = of_entries(flags, &entries);
        let mut damaged = given.clone();
        (damaged.grid[0], damaged.xs[0], damaged.map[0]) = (77, 88, 99);
        let answer = calls::pool(session, &payload, &payload, &mut damaged);
        let kept = [1, 2].map(|side| if flags & side == 0 { set_of(&given, side.cast_unsigned()) } else { entries });
        assert_eq!([set_of(&damaged, 1), set_of(&damaged, 2)], kept, "flags {flags}");
        assert_eq!((answer.number, answer.session.past, answer.session.future), (0, 0, 0));
        assert!(damaged.history[..4 * SLOT].iter().all(|&byte| byte == 0));
        assert_eq!(damaged.history[4 * SLOT], given.history[4 * SLOT]);
        // what follows from the sets is as a take of the same entries leaves it
        let mut taken = given.clone();
        let other = calls::take(session, &payload, &mut taken);
        assert!(answer == other && damaged == taken, "flags {flags}");
    }
}

/// A payload of the entries that are kept, put together byte by byte.
fn joined(shape: &Shape, first: &[u8], second: &[u8]) -> Vec<u8> {
    let mut out = first.to_vec();
    for half in [BACKWARD + 4, forward_place(shape) + 4] {
        for at in (0..shape.blocks()).map(|block| half + 8 * block) {
            let sad = |payload: &[u8]| [6, 5, 4].map(|byte| payload[at + byte]);
            if sad(second) < sad(first) {
                out[at..at + 8].copy_from_slice(&second[at..at + 8]);
            }
        }
    }
    out
}

/// A session of any counts over buffers of any contents.
fn any(draw: &mut Draw) -> (Session, Buffers) {
    let (shape, slots) = (shape(draw, 4), draw.between(1, 9) as usize);
    let lengths = lengths(draw, &shape, slots * SLOT + 3);
    let (side, limits, time, steps) = (draw.pick(&[1, 2]), limits(draw), time(draw), draw.any_i32().cast_unsigned());
    let kept = counts(draw, shape.blocks());
    (Session { shape, side, limits, time, past: steps % 11, future: steps / 11, kept }, buffers(draw, lengths))
}

#[test]
fn an_accepted_pool_is_a_take_of_what_is_kept() {
    let mut draw = Draw::new(17);
    for _ in 0..4000 {
        let (session, mut b) = any(&mut draw);
        let [first, second] = pair(&mut draw, &session.shape);
        let mut taken = b.clone();
        let expected = calls::take(session, &joined(&session.shape, &first, &second), &mut taken);
        assert_eq!((calls::pool(session, &first, &second, &mut b), expected.number), (expected, 0));
        assert!(b == taken);
    }
}

// ---- refusals

/// A payload that is refused by a number, or accepted by 0.
fn by(number: u32, whole: &[u8], shape: &Shape) -> Vec<u8> {
    let place = match number {
        4 => 8,
        5 => BACKWARD,
        6 => forward_place(shape),
        _ => return whole.to_vec(),
    };
    let mut out = whole.to_vec();
    out[place] ^= 1;
    out
}

#[test]
fn the_firsts_number_comes_before_the_seconds_and_nothing_is_written() {
    for flags in [0, 1, 2, 3, -4, -3, -2, -1] {
        let asked = |number| matches!((number, flags & 3), (0 | 4, _) | (5, 1 | 3) | (6, 2 | 3));
        let numbers: Vec<u32> = [0, 4, 5, 6].into_iter().filter(|&number| asked(number)).collect();
        let (session, given) = begun(flags);
        assert!(session.past == 1 && session.future == 1);
        let entries = [Entry { x: 3, y: 4, sad: 5, luma: 6 }; 3];
        let whole = of_entries(flags, &entries);
        for &one in &numbers {
            for &other in numbers.iter().filter(|&&other| one + other > 0) {
                let mut b = given.clone();
                let [first, second] = [one, other].map(|number| by(number, &whole, &usual(flags)));
                let answer = calls::pool(session, &first, &second, &mut b);
                let number = if one == 0 { other } else { one };
                assert_eq!(answer, Answer { number, session }, "flags {flags}, {one} and {other}");
                assert!(b == given, "flags {flags}, {one} and {other}");
            }
        }
    }
}

#[test]
fn a_payload_ends_with_its_last_flagged_byte() {
    for (flags, least) in [(0, 12), (1, 92), (2, 120), (3, 120)] {
        let (session, b) = begun(flags);
        let whole = of_entries(flags, &[Entry::default(); 3]);
        for length in 0..=whole.len() {
            let short = &whole[..length];
            let accepted = length >= least;
            for [first, second] in [[short, &whole[..]], [&whole[..], short]] {
                let number = calls::pool(session, first, second, &mut b.clone()).number;
                assert_eq!(number == 0, accepted, "flags {flags}, {length} bytes: {number}");
                assert_eq!(number, payload_number(&usual(flags), short));
            }
        }
    }
}

#[test]
fn a_refused_pool_leaves_any_session_and_any_buffers() {
    let (mut draw, mut seen) = (Draw::new(18), [0u32; 7]);
    for _ in 0..6000 {
        let (session, given) = any(&mut draw);
        let [first, second] = damaged_pair(&mut draw, &session.shape);
        let mut b = given.clone();
        let answer = calls::pool(session, &first, &second, &mut b);
        seen[answer.number as usize] += 1;
        if answer.number != 0 {
            assert!(answer.session == session && b == given);
        }
    }
    assert!([0, 4, 5, 6].into_iter().all(|number| seen[number] > 100), "{seen:?}");
}

#[test]
fn what_a_session_carries_is_judged_before_the_payloads_and_step_counts_never() {
    for mixture in 0..32 {
        let bad = |at: u32| mixture >> at & 1 == 1;
        let (mut session, mut b) = begun(3);
        if bad(0) {
            session.shape.pel = 65;
        }
        if bad(1) {
            b.map.pop();
        }
        if bad(2) {
            session.side = 0;
        }
        if bad(3) {
            session.time = 65_536;
        }
        (session.past, session.future) = (u32::MAX, 9);
        let given = b.clone();
        let whole = of_entries(3, &[Entry::default(); 3]);
        let second = if bad(4) { &whole[..whole.len() - 1] } else { &whole[..] };
        let answer = calls::pool(session, &whole, second, &mut b);
        let number = [2, 3, 8, 7, 6].into_iter().zip(0..).find(|&(_, at)| bad(at)).map_or(0, |(number, _)| number);
        assert_eq!(answer.number, number, "mixture {mixture}");
        assert_eq!(b == given && answer.session == session, number != 0);
        assert!(number != 0 || answer.session.past + answer.session.future == 0);
    }
}

#[test]
fn kept_counts_are_made_afresh() {
    let (session, mut b) = begun(0);
    let forged = Session { kept: Counts { counted: u32::MAX, scene: 9, m2: 9, m1: 9 }, ..session };
    let payload = of_entries(0, &[Entry::default(); 3]);
    assert_eq!(calls::pool(forged, &payload, &payload, &mut b).session, Session { past: 0, future: 0, ..session });
}

// ---- its record

#[test]
fn a_pools_record_has_both_lengths_before_both_payloads() {
    let call = Call::Pool { first: vec![7, 8, 9], second: vec![5] };
    let record = write(std::slice::from_ref(&call));
    assert_eq!(record, [6, 3, 0, 0, 0, 1, 0, 0, 0, 7, 8, 9, 5]);
    assert_eq!(Call::read(&[&record[..], &[3]].concat()), Some((call, 13)));
    assert!((0..13).all(|end| Call::read(&record[..end]).is_none()));
}
