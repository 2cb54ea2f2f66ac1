//! Each number comes back as its error, and a refused call leaves what it was lent as it was.

use exports::Owned;
use yoltzimur::constants::SLOT_SIZE;
use yoltzimur::{
    BlockVector, Counts, Error, FieldShape, Gesture, LumaTable, SceneLimits, Session, Side, field, raw, vector_data,
};

const TABLE: LumaTable = [0; 511];

fn shape() -> FieldShape {
    FieldShape {
        flags: 3,
        block_w: 8,
        block_h: 8,
        pel: 1,
        width: 24,
        height: 16,
        grid_w: 3,
        grid_h: 2,
        ..FieldShape::default()
    }
}

fn session() -> Session {
    Session::open(shape(), Side::Backward, SceneLimits::default(), 0, &TABLE, 4).unwrap()
}

/// A payload whose start and counts are each good or wrong.
fn payload(start: i32, backward: i32, forward: i32) -> Vec<u8> {
    let mut bytes = yoltzimur::payload(shape(), Some(&[1; 48]), Some(&[1; 48])).unwrap();
    for (at, word) in [(0, start), (64, backward), (68 + 48, forward)] {
        bytes[at..at + 4].copy_from_slice(&word.to_le_bytes());
    }
    bytes
}

/// Buffers for the shape, all zeros, with a history of so many steps.
fn zeros(steps: usize) -> Owned {
    Owned {
        backward: vec![0; 48],
        forward: vec![0; 48],
        table: TABLE,
        grid: vec![0; 21],
        xs: vec![0; 6],
        ys: vec![0; 6],
        averages: vec![0; 6],
        map: vec![0; 6],
        history: vec![0; steps * SLOT_SIZE],
    }
}

/// What can be seen of a session.
fn seen(s: &Session) -> String {
    format!("{s:?}")
}

#[test]
fn a_record_that_is_short_or_not_160_is_refused() {
    let mut record = [0; 60];
    record[0] = 160;
    assert!(vector_data(&record).is_ok());
    assert_eq!(vector_data(&record[..59]), Err(Error::Record));
    record[0] = 161;
    assert_eq!(vector_data(&record), Err(Error::Record));
}

#[test]
fn each_number_is_its_error() {
    let wide = FieldShape { grid_w: 1025, ..shape() };
    assert_eq!(
        Session::open(wide, Side::Backward, SceneLimits::default(), 0, &TABLE, 1).map(|_| ()),
        Err(Error::Shape)
    );
    assert_eq!(
        Session::open(shape(), Side::Backward, SceneLimits::default(), 0, &TABLE, 0).map(|_| ()),
        Err(Error::Buffer)
    );
    assert_eq!(field::update(shape(), &payload(16, 13, 13), &mut [0; 47], &mut [0; 48]), Err(Error::Buffer));
    let mut s = session();
    assert_eq!(s.take(&payload(17, 13, 13)), Err(Error::Head));
    assert_eq!(s.take(&payload(16, 12, 13)), Err(Error::BackwardHalf));
    assert_eq!(s.retime(65_536), Err(Error::Range));
    assert_eq!(s.cover_mask(1001, 1.0, &mut [0; 6]), Err(Error::Range));
    assert_eq!(s.sad_mask(0, f64::NAN, &mut [0; 6]), Err(Error::Range));
    assert_eq!(s.sad_mask(0, 1.0, &mut [0; 5]), Err(Error::Buffer));
    let (entry, turn) = (BlockVector::default(), Gesture::from(5));
    assert_eq!(s.put(Side::Forward, 6, entry, turn), Err(Error::Place));
    assert_eq!(s.put(Side::Forward, 0, BlockVector { sad: 16_777_216, ..entry }, turn), Err(Error::Range));
    assert_eq!(s.undo(), Err(Error::NoPast));
    assert_eq!(s.redo(), Err(Error::NoFuture));
    assert_eq!(seen(&s), seen(&session()));
}

#[test]
fn a_wrong_forward_half_leaves_the_backward_set_new() {
    // A score of 0 does not count, every other does.
    let limits = SceneLimits { zero: 1, ..SceneLimits::default() };
    let mut s = Session::open(shape(), Side::Backward, limits, 0, &TABLE, 4).unwrap();
    s.put(Side::Forward, 0, BlockVector { x: 1, ..BlockVector::default() }, Gesture::from(5)).unwrap();
    assert_eq!(s.kept(), Counts::default());
    assert_eq!(s.take(&payload(16, 13, 12)), Err(Error::ForwardHalf));
    assert_eq!((s.set(Side::Backward), s.past(), s.future()), (&[1; 48][..], 0, 0));
    assert_eq!(s.entry(Side::Forward, 0), Some(BlockVector { x: 1, ..BlockVector::default() }));
    assert_eq!(s.kept(), Counts { counted: 6, scene: 6, m2: 0, m1: 0 });
}

/// Vectors on both sides, a step to undo and one to redo.
fn edited() -> Session {
    let mut s = session();
    s.take(&payload(16, 13, 13)).unwrap();
    for (side, number) in [(Side::Backward, 1), (Side::Forward, 2)] {
        s.put(side, 3, BlockVector { x: 7, y: 7, sad: 7, luma: 7 }, Gesture::from(number)).unwrap();
    }
    s.undo().unwrap();
    s
}

/// By the first payload's number, else by the second's; by 6 too, and flag bit 0 is set.
#[test]
fn a_refused_pool_writes_nothing() {
    let payloads = [(0, [16, 13, 13]), (4, [17, 13, 13]), (5, [16, 12, 13]), (6, [16, 13, 12])]
        .map(|(number, [start, backward, forward])| (number, payload(start, backward, forward)));
    let mut s = edited();
    for (first_number, first) in &payloads {
        for (second_number, second) in &payloads[usize::from(*first_number == 0)..] {
            let number = if *first_number == 0 { *second_number } else { *first_number };
            let refused = s.pool(first, second).map_err(|error| error.number());
            assert_eq!(refused, Err(Some(number)), "{first_number} and {second_number}");
            assert_eq!(seen(&s), seen(&edited()), "{first_number} and {second_number}");
        }
    }
    // The last of them alone, taken, is refused too, and leaves something else.
    assert_eq!(s.take(&payloads[3].1), Err(Error::ForwardHalf));
    assert_ne!(seen(&s), seen(&edited()));
}

#[test]
fn a_pool_of_a_payload_that_is_cut_writes_nothing() {
    let (whole, mut s) = (payload(16, 13, 13), edited());
    for length in 0..whole.len() {
        let error = match length {
            0..12 => Error::Head,
            12..116 => Error::BackwardHalf,
            _ => Error::ForwardHalf,
        };
        for (first, second) in [(length, whole.len()), (whole.len(), length)] {
            assert_eq!(s.pool(&whole[..first], &whole[..second]), Err(error), "{first} and {second} bytes");
        }
    }
    assert_eq!(seen(&s), seen(&edited()));
    assert_eq!(s.pool(&whole, &whole), Ok(()));
}

/// Those of a pool, one of them a byte or an element too short.
fn one_short(mut b: raw::Buffers<'_>, which: usize) -> raw::Buffers<'_> {
    fn less<T>(slice: &mut &mut [T]) {
        *slice = &mut std::mem::take(slice)[1..];
    }
    match which {
        0 => less(&mut b.backward),
        1 => less(&mut b.forward),
        2 => b.table = &b.table[1..],
        3 => less(&mut b.grid),
        4 => less(&mut b.xs),
        5 => less(&mut b.ys),
        6 => less(&mut b.averages),
        7 => less(&mut b.map),
        _ => less(&mut b.history),
    }
    b
}

/// By the first of 2, 3, 8 and 7; only then by 4.
#[test]
fn a_pool_judges_session_and_buffers_before_its_payloads() {
    let number = |forged: raw::State, short: Option<usize>| {
        let mut owned = zeros(1);
        let lent = owned.lend();
        let mut b = if let Some(which) = short { one_short(lent, which) } else { lent };
        let answer = raw::pool(forged, &[], &[], &mut b);
        assert_eq!((answer.state, owned == zeros(1)), (forged, true));
        answer.number
    };
    let opened = raw::State { shape: shape(), side: 1, past: 9, future: 9, ..raw::State::default() };
    let late = raw::State { time: 65_536, ..opened };
    let aside = raw::State { side: 3, ..late };
    let shapeless = raw::State { shape: FieldShape { pel: 0, ..shape() }, ..aside };
    assert_eq!([opened, late, aside, shapeless].map(|forged| number(forged, None)), [4, 7, 8, 2]);
    for which in 0..9 {
        let short = [opened, late, aside, shapeless].map(|forged| number(forged, Some(which)));
        assert_eq!(short, [3, 3, 3, 2], "{which}");
    }
}

#[test]
fn forged_sessions_and_sides_are_refused() {
    let open = |side, state: Option<raw::State>| {
        let mut owned = zeros(1);
        let b = &mut owned.lend();
        match state {
            None => raw::open(shape(), side, SceneLimits::default(), 0, b),
            Some(state) => raw::undo(state, b),
        }
    };
    assert_eq!(open(3, None), raw::Answer { number: 8, state: raw::State::default() });
    let opened = open(1, None).state;
    // More steps than the history holds; then a slot of zeros, whose side is neither 1 nor 2.
    for forged in [
        raw::State { past: 2, ..opened },
        raw::State { past: u32::MAX, future: 1, ..opened },
        raw::State { past: 1, ..opened },
    ] {
        assert_eq!(open(1, Some(forged)), raw::Answer { number: 11, state: forged });
    }
}

/// Three steps of one gesture, of which one has a wrong block or side in turn; then one of them is of another gesture.
#[test]
fn each_slot_of_a_run_is_judged_before_anything_is_written() {
    let mut owned = zeros(3);
    let mut b = owned.lend();
    let mut put = raw::open(shape(), 1, SceneLimits::default(), 0, &mut b).state;
    for block in 0..3 {
        put = raw::put(put, 1, block, 9, 9, 9, 9, 5, &mut b).state;
    }
    let undone = raw::State { past: 0, future: 3, ..put };
    for slot in 0..3 {
        for (at, wrong) in [(0, 6), (4, 0), (4, 3)] {
            let was = std::mem::replace(&mut b.history[SLOT_SIZE * slot + at], wrong);
            let before = format!("{b:?}");
            assert_eq!(raw::undo(put, &mut b), raw::Answer { number: 11, state: put });
            assert_eq!(raw::redo(undone, &mut b), raw::Answer { number: 11, state: undone });
            assert_eq!(format!("{b:?}"), before);
            b.history[SLOT_SIZE * slot + at] = was;
        }
    }
    (b.history[4], b.history[24]) = (3, 6);
    let answer = raw::undo(put, &mut b);
    assert_eq!((answer.number, answer.state.past, answer.state.future), (0, 1, 2));
}

/// By the first of 2, 8, 7 and 12; at a count of n it is accepted.
#[test]
fn a_kept_class_is_refused_by_what_its_session_carries() {
    let opened = raw::State { shape: shape(), side: 1, ..raw::State::default() };
    let number = |forged: raw::State| {
        let class = raw::kept_class(forged);
        assert!(class.number == 0 || class.value == 0, "{class:?}");
        class.number
    };
    let counts = |count| {
        let none = Counts::default();
        [
            Counts { counted: count, ..none },
            Counts { scene: count, ..none },
            Counts { m2: count, ..none },
            Counts { m1: count, ..none },
        ]
    };
    for (count, answer) in [(6, 0), (7, 12), (u32::MAX, 12)] {
        for kept in counts(count) {
            assert_eq!(number(raw::State { kept, ..opened }), answer, "{kept:?}");
        }
    }
    for kept in counts(0).into_iter().chain(counts(7)) {
        let late = raw::State { time: 65_536, kept, ..opened };
        let aside = raw::State { side: 3, ..late };
        let shapeless = raw::State { shape: FieldShape { pel: 0, ..shape() }, ..aside };
        assert_eq!([late, aside, shapeless].map(number), [7, 8, 2]);
    }
}

#[test]
fn empty_slices_are_refused() {
    assert_eq!(raw::vector_data(&[]).number, 1);
    assert_eq!(raw::update(shape(), &[], &mut [], &mut []), 3);
    assert_eq!(raw::sad_mask(shape(), 1, &[], &[], 0, 0.0, &mut []), 3);
}

#[test]
fn errors_have_texts_and_numbers() {
    let all = [Error::Record, Error::Shape, Error::Buffer, Error::Head, Error::BackwardHalf, Error::ForwardHalf];
    let rest = [Error::Range, Error::Place, Error::NoPast, Error::NoFuture, Error::Steps, Error::Counts];
    let texts: std::collections::BTreeSet<String> = all.iter().chain(&rest).map(Error::to_string).collect();
    assert_eq!(texts.len(), 12);
    let numbers: Vec<_> = all.iter().chain(&rest).map(|e| e.number()).collect();
    assert_eq!(numbers, (1..=12).map(Some).collect::<Vec<_>>());
}
