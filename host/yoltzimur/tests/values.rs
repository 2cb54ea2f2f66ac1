//! Every field and every slice arrives at its own place: values told apart, known answers of the paper's table.

use yoltzimur::{
    BlockVector, Counts, Error, FieldShape, Gestures, SceneLimits, Session, Side, VectorData, VectorShape, field,
    payload, raw, sizes, vector_data,
};

/// Blocks of 8 by 8 that don't overlap, at pel 1 and with selector 0, both sets flagged: the table's own, of a picture and a grid.
fn table_shape(width: i32, height: i32, grid_w: i32, grid_h: i32) -> FieldShape {
    FieldShape { flags: 3, block_w: 8, block_h: 8, pel: 1, width, height, grid_w, grid_h, ..FieldShape::default() }
}

fn entry(x: i16, y: i16, sad: i32, luma: u8) -> [u8; 8] {
    BlockVector { x, y, sad, luma }.bytes().unwrap()
}

/// A record whose i32 at each place is told by its place.
fn record() -> Vec<u8> {
    let mut words: Vec<i32> = (0..15).map(|place| 1000 + place).collect();
    words[0] = 160;
    words.iter().flat_map(|word| word.to_le_bytes()).collect()
}

#[test]
fn each_field_of_a_record_is_at_its_place() {
    let data = vector_data(&record()).unwrap();
    let expected = VectorData {
        flags: 1001,
        block: VectorShape { width: 1002, height: 1003 },
        shape: VectorShape { width: 1007, height: 1008 },
        grid: VectorShape { width: 1011, height: 1012 },
        marker: 1004,
        selector: 1013,
        delta: 1014,
        overlap_x: 1009,
        overlap_y: 1010,
    };
    assert_eq!(data, expected);
    let shape = FieldShape {
        flags: 1001,
        block_w: 1002,
        block_h: 1003,
        pel: 1004,
        width: 1007,
        height: 1008,
        overlap_x: 1009,
        overlap_y: 1010,
        grid_w: 1011,
        grid_h: 1012,
        selector: 1013,
    };
    assert_eq!(FieldShape::from(data), shape);
}

#[test]
fn each_size_is_at_its_place() {
    // W = 3 + 1, H = 2. Sizes are told apart but within three groups, equal at every shape: both sets; both planes and the mask; averages and map.
    let found = sizes(table_shape(25, 16, 3, 2)).unwrap();
    assert_eq!([found.backward, found.forward, found.table, found.grid], [48, 48, 511, 6 * 4 + 1]);
    assert_eq!([found.xs, found.ys, found.averages, found.map, found.history, found.mask], [8, 8, 6, 6, 28, 8]);
    assert_eq!([found.packed_width, found.packed_height], [4, 2]);
    assert_eq!(sizes(table_shape(25, 16, 0, 2)), Err(Error::Shape));
}

#[test]
fn each_field_of_a_session_is_at_its_place() {
    let shape = FieldShape { flags: -5, overlap_x: 1, overlap_y: 2, selector: 77, ..table_shape(30, 20, 4, 3) };
    let limits = SceneLimits { blocks: 11, zero: 12, m1: 13, m2: 14, scene: 15 };
    let least = sizes(shape).unwrap();
    let (mut backward, mut forward) = (vec![9; least.backward], vec![9; least.forward]);
    let mut b = raw::Buffers {
        backward: &mut backward,
        forward: &mut forward,
        table: &[0; 511],
        grid: &mut vec![9; least.grid],
        xs: &mut vec![9; least.xs],
        ys: &mut vec![9; least.ys],
        averages: &mut vec![9; least.averages],
        map: &mut vec![9; least.map],
        history: &mut [9; 92],
    };
    let opened = raw::State { shape, side: 2, limits, time: -300, past: 0, future: 0, kept: Counts::default() };
    assert_eq!(raw::open(shape, 2, limits, -300, &mut b), raw::Answer { number: 0, state: opened });
    let put = raw::put(opened, 2, 7, -2, 5, 0x123456, 200, 0x89AB_CDEF, &mut b);
    let kept = Counts { counted: 1, scene: 1, m2: 0, m1: 0 };
    assert_eq!(put, raw::Answer { number: 0, state: raw::State { past: 1, kept, ..opened } });
    let undone = raw::undo(put.state, &mut b);
    assert_eq!(undone, raw::Answer { number: 0, state: raw::State { future: 1, ..opened } });
    let redone = raw::redo(undone.state, &mut b);
    assert_eq!(redone, put);
    let later = raw::retime(redone.state, 41, &mut b);
    assert_eq!(later, raw::Answer { number: 0, state: raw::State { time: 41, ..put.state } });
    // D is 3 of 92 bytes: the 8 bytes behind them keep what they held.
    assert_eq!(b.history[..8], [7, 0, 0, 0, 2, 0, 0, 0]);
    assert_eq!(b.history[8..16], [0; 8]);
    assert_eq!(b.history[16..24], entry(-2, 5, 0x123456, 200));
    assert_eq!(b.history[24..28], [0xEF, 0xCD, 0xAB, 0x89]);
    assert_eq!(b.history[28..84], [0; 56]);
    assert_eq!(b.history[84..], [9; 8]);
    assert_eq!(BlockVector::read(&forward, 7), Some(BlockVector { x: -2, y: 5, sad: 0x123456, luma: 200 }));
    assert_eq!(backward, vec![0; least.backward]);
}

/// Limits at which a sad of 1 to 4, with an average of 1, counts for none, m1, m2 and scene.
const STAIRS: SceneLimits = SceneLimits { blocks: 50, zero: 255, m1: 510, m2: 765, scene: 1020 };

#[test]
fn each_kept_count_is_at_its_place() {
    let shape = table_shape(32, 24, 4, 3);
    let mut s = Session::open(shape, Side::Forward, STAIRS, 256, &[0; 511], 20).unwrap();
    let mut gestures = Gestures::new();
    for (block, sad) in [1, 1, 1, 1, 2, 2, 2, 3, 3, 4].into_iter().enumerate() {
        let entry = BlockVector { sad, ..BlockVector::default() };
        s.put(Side::Forward, block as u32, entry, gestures.begin()).unwrap();
    }
    let kept = Counts { counted: 10, scene: 1, m2: 2, m1: 3 };
    // Half of the counted ones are 5, and scene, m2 and m1 together are 6.
    assert_eq!((s.kept(), s.kept_class(), s.quality()), (kept, Ok(1), Ok(1)));
    let state = raw::State { shape, side: 2, limits: STAIRS, time: 256, past: 0, future: 0, kept };
    for (other, value) in [
        (Counts { counted: 6, ..kept }, 2),
        (Counts { scene: 5, ..kept }, 3),
        (Counts { m2: 4, ..kept }, 2),
        (Counts { m1: 1, ..kept }, 0),
    ] {
        assert_eq!(raw::kept_class(raw::State { kept: other, ..state }), raw::Class { number: 0, value }, "{other:?}");
    }
}

/// On a session whose counts do not fit its vectors, with an average that something else has changed.
#[test]
fn a_kept_count_wraps_and_no_lent_average_is_read() {
    let mut b = raw::Buffers {
        backward: &mut [0; 16],
        forward: &mut [0; 16],
        table: &[0; 511],
        grid: &mut [0; 13],
        xs: &mut [0; 2],
        ys: &mut [0; 2],
        averages: &mut [0; 2],
        map: &mut [0; 2],
        history: &mut [0; 28],
    };
    let opened = raw::open(table_shape(16, 8, 2, 1), 1, STAIRS, 0, &mut b).state;
    let put = raw::put(opened, 1, 0, 0, 0, 4, 0, 6, &mut b).state;
    assert_eq!(put.kept, Counts { counted: 1, scene: 1, m2: 0, m1: 0 });
    b.averages[0] = 255;
    let undone = raw::undo(raw::State { kept: Counts::default(), ..put }, &mut b);
    assert_eq!(undone.state.kept, Counts { counted: u32::MAX, scene: u32::MAX, m2: 0, m1: 0 });
    assert_eq!(raw::kept_class(undone.state), raw::Class { number: 12, value: 0 });
    assert_eq!(raw::redo(undone.state, &mut b).state.kept, Counts::default());
}

#[test]
fn zero_vectors_cover_all_but_the_border() {
    let shape = table_shape(24, 24, 3, 3);
    let (set, mut scratch, mut mask) = ([0; 72], [7; 27], [7; 10]);
    field::cover_mask(shape, Side::Forward, &set, &set, 100, 1.0, 0, &mut scratch, &mut mask).unwrap();
    assert_eq!(mask, [128, 64, 128, 64, 0, 64, 128, 64, 128, 7]);
    assert_eq!(scratch[6..9], [64, 64, 64]);
    assert_eq!(scratch[25..], [0, 7]);
}

#[test]
fn each_set_and_plane_is_told_apart() {
    let shape = FieldShape { selector: 1, ..table_shape(16, 8, 2, 1) };
    let backward = [entry(1, 2, 8, 10), entry(-3, 4, 16, 20)].concat();
    let forward = [entry(5, 6, 0, 30), entry(7, -8, 8, 40)].concat();
    let (mut xs, mut ys) = ([0; 2], [0; 2]);
    field::pack(shape, Side::Backward, &backward, &forward, &mut xs, &mut ys).unwrap();
    assert_eq!((xs, ys), ([1025, 1021], [1026, 1028]));
    field::pack(shape, Side::Forward, &backward, &forward, &mut xs, &mut ys).unwrap();
    assert_eq!((xs, ys), ([1029, 1031], [1030, 1016]));
    let mut table = [0; 511];
    (table[40], table[60]) = (1, 255);
    let mut averages = [0; 2];
    field::avg_luma(shape, &backward, &forward, &table, &mut averages).unwrap();
    assert_eq!(averages, [1, 255]);
    let mut mask = [0; 2];
    field::sad_mask(shape, Side::Backward, &backward, &forward, 0, 1.0, &mut mask).unwrap();
    assert_eq!(mask, [127, 255]);
    field::sad_mask(shape, Side::Forward, &backward, &forward, 0, 1.0, &mut mask).unwrap();
    assert_eq!(mask, [0, 127]);
}

#[test]
fn each_limit_is_told_apart() {
    let shape = table_shape(40, 8, 5, 1);
    let limits = SceneLimits { blocks: 50, zero: 255, m1: 510, m2: 765, scene: 1020 };
    let set: Vec<u8> = [0, 1, 2, 3, 4].into_iter().flat_map(|sad| entry(0, 0, sad, 0)).collect();
    let other = vec![0; 40];
    let (averages, mut map) = ([1; 5], [9; 5]);
    field::quality_map(shape, Side::Forward, limits, &other, &set, &averages, &mut map).unwrap();
    assert_eq!(map, [255, 0, 1, 2, 3]);
    // Four are counted, half of them are 2: one at scene is too few, one more at m2 is enough.
    assert_eq!(field::quality(shape, Side::Forward, limits, &other, &set, &averages), Ok(2));
    assert_eq!(field::quality(shape, Side::Backward, limits, &other, &set, &averages), Ok(3));
}

/// Sads that are smaller, equal, greater and smaller than the first payload's; then payloads that are short by another number each.
#[test]
fn each_payload_of_a_pool_is_told_apart() {
    let shape = table_shape(16, 8, 2, 1);
    let of = |backward: [[u8; 8]; 2], forward: [[u8; 8]; 2]| {
        payload(shape, Some(backward.as_flattened()), Some(forward.as_flattened())).unwrap()
    };
    let first = of([entry(1, 2, 8, 10), entry(-3, 4, 16, 20)], [entry(5, 6, 0, 30), entry(7, -8, 8, 40)]);
    let second = of([entry(11, 12, 7, 50), entry(13, 14, 16, 60)], [entry(15, 16, 1, 70), entry(17, 18, 6, 80)]);
    let mut s = Session::open(shape, Side::Forward, STAIRS, 256, &[1; 511], 1).unwrap();
    s.pool(&first, &second).unwrap();
    assert_eq!(s.set(Side::Backward), [entry(11, 12, 7, 50), entry(-3, 4, 16, 20)].as_flattened());
    assert_eq!(s.set(Side::Forward), [entry(5, 6, 0, 30), entry(17, 18, 6, 80)].as_flattened());
    s.pool(&second, &first).unwrap();
    assert_eq!(s.set(Side::Backward), [entry(11, 12, 7, 50), entry(13, 14, 16, 60)].as_flattened());
    assert_eq!(s.set(Side::Forward), [entry(5, 6, 0, 30), entry(17, 18, 6, 80)].as_flattened());
    for (first_len, second_len, error) in [
        (103, 104, Error::ForwardHalf),
        (104, 103, Error::ForwardHalf),
        (103, 11, Error::ForwardHalf),
        (11, 103, Error::Head),
        (83, 11, Error::BackwardHalf),
        (104, 83, Error::BackwardHalf),
    ] {
        assert_eq!(s.pool(&first[..first_len], &second[..second_len]), Err(error), "{first_len} and {second_len}");
    }
}

#[test]
fn a_payload_renews_both_sets() {
    let shape = table_shape(16, 8, 2, 1);
    let backward = [entry(1, 2, 3, 4), entry(5, 6, 7, 8)].concat();
    let forward = [entry(-1, -2, 9, 10), entry(-3, -4, 11, 12)].concat();
    let payload = payload(shape, Some(&backward), Some(&forward)).unwrap();
    let (mut b, mut f) = (vec![0; 17], vec![0; 17]);
    field::update(shape, &payload, &mut b, &mut f).unwrap();
    assert_eq!((&b[..16], &f[..16], b[16], f[16]), (&backward[..], &forward[..], 0, 0));
}
