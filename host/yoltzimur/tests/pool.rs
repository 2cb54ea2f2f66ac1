//! Of two payloads a pool keeps, for each block of each flagged side, the entry whose sad is smaller, the first one's at a tie; and it leaves
//! what a take of the kept entries leaves.

use draw::Draw;
use exports::Owned;
use yoltzimur::constants::{ENTRY_SIZE, FLAG_BACKWARD, FLAG_FORWARD, SAD_MOST, SLOT_SIZE};
use yoltzimur::{BlockVector, Counts, FieldShape, Gesture, LumaTable, SceneLimits, Session, Side, payload, raw};

const SIDES: [Side; 2] = [Side::Backward, Side::Forward];
const LIMITS: SceneLimits = SceneLimits { blocks: 50, zero: 3, m1: 5, m2: 9, scene: 12 };

/// Twelve blocks.
fn shape(flags: i32) -> FieldShape {
    FieldShape {
        flags,
        block_w: 8,
        block_h: 8,
        pel: 1,
        width: 33,
        height: 24,
        grid_w: 4,
        grid_h: 3,
        ..FieldShape::default()
    }
}

fn table() -> LumaTable {
    std::array::from_fn(|sum| (sum / 2) as u8)
}

/// A session with vectors on both sides, and steps to undo and to redo.
fn opened(flags: i32, shown: Side) -> Session {
    let mut s = Session::open(shape(flags), shown, LIMITS, 256, &table(), 30).unwrap();
    for block in 0..12 {
        let entry = BlockVector { x: 3, y: -5, sad: 7 + block, luma: 77 };
        for side in SIDES {
            s.put(side, block as u32, entry, Gesture::from(block as u32)).unwrap();
        }
    }
    s.undo().unwrap();
    assert_eq!([s.past(), s.future()], [22, 2]);
    s
}

fn bytes(entries: &[BlockVector]) -> Vec<u8> {
    entries.iter().flat_map(|entry| entry.bytes().unwrap()).collect()
}

/// Sads of each pair, and whether the second's entry is kept: bytes of a sad that count more than those before them, and both ends.
const PAIRS: [([i32; 2], bool); 12] = [
    ([5, 6], false),
    ([6, 5], true),
    ([5, 5], false),
    ([0, 0], false),
    ([SAD_MOST, SAD_MOST], false),
    ([0, SAD_MOST], false),
    ([SAD_MOST, 0], true),
    ([0xFF, 0x100], false),
    ([0x100, 0xFF], true),
    ([0x1_0000, 0xFFFF], true),
    ([0x7F_FFFF, 0x80_0000], false),
    ([0x80_0000, 0x7F_FFFF], true),
];

/// Vectors and lumas differ too, either of them the greater one in turn, and do not matter.
#[test]
fn the_entry_with_the_smaller_sad_is_kept_whole() {
    let low = |sad| BlockVector { x: -32_768, y: -2, sad, luma: 0 };
    let high = |sad| BlockVector { x: 32_767, y: 300, sad, luma: 255 };
    let entries = |turned: bool| {
        let pair = |sads: [i32; 2]| match turned {
            false => [low(sads[0]), high(sads[1])],
            true => [high(sads[0]), low(sads[1])],
        };
        PAIRS.map(|(sads, second)| (pair(sads), usize::from(second)))
    };
    for turned in [false, true] {
        let sides = [entries(turned), entries(!turned)];
        let of = |which: usize| {
            let [backward, forward] = sides.map(|side| bytes(&side.map(|(pair, _)| pair[which])));
            payload(shape(3), Some(&backward), Some(&forward)).unwrap()
        };
        let mut s = opened(3, Side::Backward);
        s.pool(&of(0), &of(1)).unwrap();
        for (side, entries) in SIDES.into_iter().zip(sides) {
            assert_eq!(s.set(side), bytes(&entries.map(|(pair, kept)| pair[kept])), "{side:?}");
        }
    }
}

/// A set of drawn entries, with sads of few values, so that many are equal.
fn set(draw: &mut Draw) -> Vec<u8> {
    let entries = std::array::from_fn::<_, 12, _>(|_| BlockVector {
        x: draw.between(-300, 300) as i16,
        y: draw.between(-300, 300) as i16,
        sad: draw.pick(&[0, 1, 2, 5, 300, 0x7F_FFFF, 0x80_0000, SAD_MOST]),
        luma: draw.between(0, 255) as u8,
    });
    bytes(&entries)
}

/// The entries of two sets that are kept.
fn kept(first: &[u8], second: &[u8]) -> Vec<u8> {
    let sad = |entry: &[u8]| u32::from_le_bytes([entry[4], entry[5], entry[6], 0]);
    let pairs = first.chunks(ENTRY_SIZE).zip(second.chunks(ENTRY_SIZE));
    pairs.flat_map(|(one, other)| if sad(other) < sad(one) { other } else { one }).copied().collect()
}

/// With each pair of flag bits, negative flags among them: every byte of the session, and no steps.
#[test]
fn a_pool_leaves_what_a_take_of_the_kept_entries_leaves() {
    let mut draw = Draw::new(7);
    for _ in 0..40 {
        for (flags, shown) in [0, 1, 2, 3, -4, -3, -2, -1].into_iter().flat_map(|flags| SIDES.map(|side| (flags, side)))
        {
            let [b, f, other_b, other_f] = [(); 4].map(|()| set(&mut draw));
            let whole = |b: &[u8], f: &[u8]| payload(shape(flags), Some(b), Some(f)).unwrap();
            let (mut pooled, mut taken) = (opened(flags, shown), opened(flags, shown));
            pooled.pool(&whole(&b, &f), &whole(&other_b, &other_f)).unwrap();
            taken.take(&whole(&kept(&b, &other_b), &kept(&f, &other_f))).unwrap();
            assert_eq!(format!("{pooled:?}"), format!("{taken:?}"), "flags {flags}");
            assert_eq!([pooled.past(), pooled.future()], [0, 0]);
        }
    }
}

#[test]
fn an_unflagged_side_stays() {
    for flags in [0, FLAG_BACKWARD, FLAG_FORWARD, FLAG_BACKWARD | FLAG_FORWARD] {
        let before = opened(flags, Side::Forward);
        let mut s = before.clone();
        let whole = |sad| {
            let set = bytes(&[BlockVector { x: 9, y: 9, sad, luma: 9 }; 12]);
            payload(shape(flags), Some(&set), Some(&set)).unwrap()
        };
        s.pool(&whole(2), &whole(1)).unwrap();
        for (side, bit) in SIDES.into_iter().zip([FLAG_BACKWARD, FLAG_FORWARD]) {
            let new = s.set(side).chunks(ENTRY_SIZE).all(|entry| entry == [9, 0, 9, 0, 1, 0, 0, 9]);
            let (flagged, stayed) = (flags & bit != 0, s.set(side) == before.set(side));
            assert_eq!((new, stayed), (flagged, !flagged), "flags {flags}, {side:?}");
        }
    }
}

#[test]
fn one_payload_twice_is_a_take() {
    let mut draw = Draw::new(8);
    let bytes = payload(shape(3), Some(&set(&mut draw)), Some(&set(&mut draw))).unwrap();
    let (mut pooled, mut taken) = (opened(3, Side::Forward), opened(3, Side::Forward));
    pooled.pool(&bytes, &bytes).unwrap();
    taken.take(&bytes).unwrap();
    assert_eq!(format!("{pooled:?}"), format!("{taken:?}"));
}

/// On a session and buffers that no call left so, with neither flag bit set: no entry is read, and all but the sets is new.
#[test]
fn all_is_filled_afresh_also_where_no_set_is_new() {
    let damaged = Owned {
        backward: vec![9; 96],
        forward: vec![9; 96],
        table: table(),
        grid: vec![9; 36],
        xs: vec![9; 15],
        ys: vec![9; 15],
        averages: vec![8; 12],
        map: vec![9; 12],
        history: vec![9; 2 * SLOT_SIZE + 1],
    };
    let mut owned = damaged.clone();
    let kept = Counts { counted: 99, scene: 98, m2: 97, m1: 96 };
    let state = raw::State { shape: shape(0), side: 2, limits: LIMITS, time: 128, past: 5, future: u32::MAX, kept };
    let head = payload(shape(0), None, None).unwrap();
    let answer = raw::pool(state, &head, &head, &mut owned.lend());
    let kept = Counts { counted: 12, scene: 12, m2: 0, m1: 0 };
    assert_eq!(answer, raw::Answer { number: 0, state: raw::State { past: 0, future: 0, kept, ..state } });
    assert_eq!((&owned.backward, &owned.forward), (&damaged.backward, &damaged.forward));
    // A component of 0x0909 is outside what a plane holds, and a luma of 9 on both sides has an average of 9.
    assert_eq!((&owned.xs, &owned.ys), (&vec![1024; 15], &vec![1024; 15]));
    assert_eq!((&owned.averages, &owned.map), (&vec![9; 12], &vec![3; 12]));
    assert_eq!(owned.history, [vec![0; 2 * SLOT_SIZE], vec![9]].concat());
    // Every block goes 2313 × 128 / 256 pixels to the right and down, off the picture: all of its area is trash.
    assert_eq!(owned.grid, [vec![0; 35], vec![64 * 12]].concat());
}
