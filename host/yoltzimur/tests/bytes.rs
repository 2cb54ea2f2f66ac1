//! What is written as bytes stands at its own place, and the library reads it back as given.

use yoltzimur::constants::{ENTRY_SIZE, RECORD_LEN, SAD_MOST};
use yoltzimur::{BlockVector, Error, FieldShape, VectorData, field, payload, vector_data};

fn shape(flags: i32) -> FieldShape {
    FieldShape {
        flags,
        block_w: 8,
        block_h: 8,
        pel: 1,
        width: 16,
        height: 8,
        grid_w: 2,
        grid_h: 1,
        ..FieldShape::default()
    }
}

#[test]
fn an_entry_is_its_eight_bytes() {
    let entry = BlockVector { x: -2, y: 0x1234, sad: 0x56789A, luma: 200 };
    assert_eq!(entry.bytes(), Ok([0x34, 0x12, 0xFE, 0xFF, 0x9A, 0x78, 0x56, 200]));
    let ends = BlockVector { x: i16::MAX, y: i16::MIN, sad: SAD_MOST, luma: 0 };
    let mut set = [9; 2 * ENTRY_SIZE + 1];
    assert_eq!((entry.write(&mut set, 0), ends.write(&mut set, 1)), (Ok(()), Ok(())));
    assert_eq!([BlockVector::read(&set, 0), BlockVector::read(&set, 1)], [Some(entry), Some(ends)]);
    assert_eq!(set[16], 9);
}

#[test]
fn an_entry_that_is_refused_writes_nothing() {
    let entry = BlockVector::default();
    let mut set = [9; 17];
    for block in [2, usize::MAX / 8, usize::MAX] {
        assert_eq!(entry.write(&mut set, block), Err(Error::Buffer));
        assert_eq!(BlockVector::read(&set, block), None);
    }
    for sad in [-1, SAD_MOST + 1, i32::MIN] {
        assert_eq!(BlockVector { sad, ..entry }.bytes(), Err(Error::Range));
        assert_eq!(BlockVector { sad, ..entry }.write(&mut set, 0), Err(Error::Range));
    }
    assert_eq!(set, [9; 17]);
}

#[test]
fn a_record_is_read_back() {
    let given = FieldShape {
        flags: -5,
        block_w: 102,
        block_h: 103,
        pel: 104,
        width: 107,
        height: 108,
        overlap_x: 109,
        overlap_y: 110,
        grid_w: 111,
        grid_h: 112,
        selector: 113,
    };
    let values = VectorData::of_shape(given, 114);
    let bytes = values.bytes();
    let words: Vec<i32> = bytes.chunks(4).map(|word| i32::from_le_bytes(word.try_into().unwrap())).collect();
    assert_eq!(words, [160, -5, 102, 103, 104, 0, 0, 107, 108, 109, 110, 111, 112, 113, 114]);
    assert_eq!(bytes.len(), RECORD_LEN);
    assert_eq!(vector_data(&bytes), Ok(values));
    assert_eq!(FieldShape::from(values), given);
}

/// Of each pair of flag bits, negative ones too: how long it is, and what it renews.
#[test]
fn a_payload_is_read_back() {
    let sets: [Vec<u8>; 2] = [(10..26).collect(), (40..56).collect()];
    for (flags, length) in [(0, 12), (1, 84), (2, 104), (3, 104), (-4, 12), (-3, 84), (-2, 104), (-1, 104)] {
        let given = [1, 2].map(|bit| flags & bit != 0);
        let asked = |side: usize| given[side].then_some(&sets[side][..]);
        let bytes = payload(shape(flags), asked(0), asked(1)).unwrap();
        assert_eq!(bytes.len(), length, "{flags}");
        // What is not asked for makes no difference.
        assert_eq!(payload(shape(flags), Some(&sets[0]), Some(&sets[1])).as_ref(), Ok(&bytes), "{flags}");
        let (mut backward, mut forward) = (vec![0; 16], vec![0; 16]);
        assert_eq!(field::update(shape(flags), &bytes, &mut backward, &mut forward), Ok(()), "{flags}");
        let expected = [0, 1].map(|side| if given[side] { sets[side].clone() } else { vec![0; 16] });
        assert_eq!([backward, forward], expected, "{flags}");
        let cut = field::update(shape(flags), &bytes[..length - 1], &mut [0; 16], &mut [0; 16]);
        assert!(cut.is_err(), "{flags}");
    }
}

#[test]
fn a_payload_without_its_sets_or_its_shape_is_refused() {
    let set = &[1; 16][..];
    assert_eq!(payload(shape(3), Some(&set[1..]), Some(set)), Err(Error::Buffer));
    assert_eq!(payload(shape(3), Some(set), Some(&set[1..])), Err(Error::Buffer));
    assert_eq!(payload(shape(3), None, Some(set)), Err(Error::Buffer));
    assert_eq!(payload(shape(3), Some(set), None), Err(Error::Buffer));
    assert_eq!(payload(FieldShape { pel: 0, ..shape(3) }, Some(set), Some(set)), Err(Error::Shape));
}

#[test]
fn of_a_longer_set_the_first_entries_are_written() {
    let long: Vec<u8> = (0..20).collect();
    assert_eq!(payload(shape(1), Some(&long), None), payload(shape(1), Some(&long[..16]), None));
}
