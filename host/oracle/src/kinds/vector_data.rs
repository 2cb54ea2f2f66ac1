//! `vector_data`: records of every length from 0 to 90, magics that are nearly 160, fields at their ends.
//!
//! Numbers: accepted (1 or 0), then the 12 fields, 0 if refused. Part: the record.

use crate::answers::Case;
use crate::draw::Draw;
use crate::metadata::{VectorData, VectorRecord, vector_data};

pub fn cases() -> Vec<Case> {
    let mut draw = Draw::new(1);
    let mut records = Vec::new();
    for length in 0..=90 {
        records.push(record(&mut draw, 160, length));
    }
    for magic in [0, 159, 161, 0x1A0, 0x1_00A0, 0x0100_00A0, -160, 0xA000_0000_u32 as i32, i32::MIN, i32::MAX] {
        records.push(record(&mut draw, magic, 60));
    }
    for field in 1..15 {
        for value in [0, -1, i32::MIN, i32::MAX] {
            let mut bytes = record(&mut draw, 160, 60);
            bytes[4 * field..4 * field + 4].copy_from_slice(&value.to_le_bytes());
            records.push(bytes);
        }
    }
    for _ in 0..100 {
        let length = draw.between(56, 90) as usize;
        records.push(record(&mut draw, 160, length));
    }
    records.iter().map(|record| case(record)).collect()
}

/// Drawn bytes after the magic, cut to a length.
fn record(draw: &mut Draw, magic: i32, length: usize) -> Vec<u8> {
    let mut bytes = magic.to_le_bytes().to_vec();
    bytes.extend(draw.bytes(100));
    bytes.truncate(length);
    bytes
}

fn case(record: &[u8]) -> Case {
    let mut numbers = [0; 13];
    let VectorRecord::Ready(data) = vector_data(record) else {
        return Case::new(&numbers).answered_by(0).part(record);
    };
    numbers[0] = 1;
    numbers[1..].copy_from_slice(&fields(&data));
    (0..13).fold(Case::new(&numbers), Case::answered_by).part(record)
}

const fn fields(d: &VectorData) -> [i32; 12] {
    let overlap = d.origin();
    [
        d.flags,
        d.block.width,
        d.block.height,
        d.shape.width,
        d.shape.height,
        d.grid.width,
        d.grid.height,
        d.marker,
        d.selector(),
        d.delta,
        overlap.width,
        overlap.height,
    ]
}
