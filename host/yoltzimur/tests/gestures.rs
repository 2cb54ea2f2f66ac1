//! One undo takes back the steps of one gesture, and one redo makes them again: the steps next to each other with one number.

use draw::Draw;
use yoltzimur::{BlockVector, FieldShape, Gesture, Gestures, SceneLimits, Session, Side, payload};

/// A session of vectors that are not zero, and of so many steps.
fn opened(depth: usize) -> Session {
    let shape = FieldShape {
        flags: 3,
        block_w: 16,
        block_h: 12,
        pel: 2,
        width: 90,
        height: 70,
        overlap_x: 1,
        overlap_y: 3,
        grid_w: 6,
        grid_h: 5,
        selector: 0,
    };
    let limits = SceneLimits { blocks: 50, zero: 200, m1: 6_000_000, m2: 10_000_000, scene: 15_000_000 };
    let table = std::array::from_fn(|sum| (sum / 2) as u8);
    let mut s = Session::open(shape, Side::Backward, limits, 256, &table, depth).unwrap();
    let mut draw = Draw::new(4);
    s.take(&payload(shape, Some(&draw.bytes(240)), Some(&draw.bytes(240))).unwrap()).unwrap();
    s
}

/// What a session holds but for its steps.
fn held(s: &Session) -> String {
    let sets = [Side::Backward, Side::Forward].map(|side| s.set(side));
    format!("{:?}", (sets, s.grid(), s.planes(), s.averages(), s.map(), s.kept()))
}

/// One of few blocks of either side, so that a gesture puts one several times, and an entry for it.
fn edit(draw: &mut Draw) -> (Side, u32, BlockVector) {
    let entry = BlockVector {
        x: draw.between(-32_768, 32_767) as i16,
        y: draw.between(-300, 300) as i16,
        sad: draw.between(0, 16_000_000),
        luma: draw.between(0, 255) as u8,
    };
    (draw.pick(&[Side::Backward, Side::Forward]), draw.between(0, 5) as u32, entry)
}

/// Beside each gesture the same puts with a number each, taken back and made again one by one.
#[test]
fn one_undo_takes_back_what_a_wheel_turn_made() {
    let [mut whole, mut single] = [(); 2].map(|()| opened(50));
    let (mut turns, mut alone) = (Gestures::new(), Gestures::new());
    let mut draw = Draw::new(3);
    let mut before = Vec::new();
    let turned = [1, 40, 3];
    for puts in turned {
        before.push((held(&whole), whole.past()));
        let turn = turns.begin();
        for _ in 0..puts {
            let (side, block, entry) = edit(&mut draw);
            whole.put(side, block, entry, turn).unwrap();
            single.put(side, block, entry, alone.begin()).unwrap();
        }
        assert_eq!(held(&whole), held(&single));
    }
    for (puts, before) in turned.into_iter().zip(before).rev() {
        whole.undo().unwrap();
        (0..puts).for_each(|_| single.undo().unwrap());
        assert_eq!((held(&whole), whole.past()), before);
        assert_eq!(held(&single), before.0);
    }
    assert_eq!([whole.past(), whole.future()], [0, 44]);
    for puts in turned {
        whole.redo().unwrap();
        (0..puts).for_each(|_| single.redo().unwrap());
        assert_eq!(held(&whole), held(&single));
        assert_eq!([whole.past(), whole.future()], [single.past(), single.future()]);
    }
    assert_eq!([whole.past(), whole.future()], [44, 0]);
}

fn put(s: &mut Session, numbers: &[u32]) {
    for number in numbers {
        s.put(Side::Forward, 3, BlockVector::default(), Gesture::from(*number)).unwrap();
    }
}

/// Puts with these numbers on a session of five steps, then undos to the last: the past steps that each leaves.
fn left(numbers: &[u32]) -> Vec<u32> {
    let mut s = opened(5);
    put(&mut s, numbers);
    std::iter::from_fn(|| s.undo().ok().map(|()| s.past())).collect()
}

#[test]
fn equal_numbers_are_one_gesture_where_they_are_next_to_each_other() {
    assert_eq!(left(&[1, 2, 3]), [2, 1, 0]);
    assert_eq!(left(&[7, 7, 7]), [0]);
    assert_eq!(left(&[1, 1, 2, 1, 1]), [3, 2, 0]);
    assert_eq!(left(&[0, u32::MAX, u32::MAX, 0]), [3, 1, 0]);
}

#[test]
fn a_number_joins_steps_that_an_undo_left_last() {
    let mut s = opened(5);
    put(&mut s, &[1, 2]);
    s.undo().unwrap();
    put(&mut s, &[1]);
    assert_eq!((s.undo(), s.past(), s.future()), (Ok(()), 0, 2));
}

/// The slots behind the steps are zero, and so is the number.
#[test]
fn slots_without_a_step_are_no_part_of_gesture_0() {
    let mut s = opened(5);
    put(&mut s, &[0, 0]);
    assert_eq!((s.undo(), s.past(), s.future()), (Ok(()), 0, 2));
    assert_eq!((s.redo(), s.past(), s.future()), (Ok(()), 2, 0));
}

#[test]
fn the_oldest_step_goes_alone() {
    assert_eq!(left(&[1, 1, 1, 2, 2, 2]), [2, 0]);
    assert_eq!(left(&[1, 2, 2, 2, 2, 2, 2]), [0]);
    let mut s = opened(5);
    put(&mut s, &[1, 1, 1, 2, 2, 2]);
    let kept = held(&s);
    s.undo().and_then(|()| s.undo()).unwrap();
    assert_eq!([s.past(), s.future()], [0, 5]);
    s.redo().and_then(|()| s.redo()).unwrap();
    assert_eq!(([s.past(), s.future()], held(&s)), ([5, 0], kept));
}
