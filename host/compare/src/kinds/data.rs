//! `vector_data`, the shape that a record gives, and the sizes that a shape asks for.

use draw::Draw;
use model::drawn::{self, bad_shape, of_grid};
use model::fields::{Sizes, sizes_of};
use model::record::{self, MAGIC, RECORD, Record};
use model::shape::Shape;
use oracle::inputs::{field_shape, shape_numbers};
use oracle::metadata::{VectorData, VectorRecord};
use oracle::smooth::FieldShape;

use crate::boundaries;
use crate::guarded::Guarded;
use crate::plant::{self, MODEL, Part, RUST};
use crate::tally::Tally;
use crate::tried::{Change, Kind};

/// A record's bytes.
#[derive(Clone, Debug)]
pub struct Data(Vec<u8>);

pub const VECTOR_DATA: Kind<Data> = Kind {
    call: "vector_data",
    drawn: 2_000_000,
    boundaries: records,
    draw: drawn_record,
    check: vector_data,
    smaller: smaller_record,
};

pub const SHAPE_OF: Kind<Record> = Kind {
    call: "shape_of",
    drawn: 500_000,
    boundaries: read_records,
    draw: drawn_values,
    check: shape_of,
    smaller: |_| Vec::new(),
};

pub const SIZES: Kind<Shape> = Kind {
    call: "sizes",
    drawn: 1_000_000,
    boundaries: shapes,
    draw: drawn_shape,
    check: sizes,
    smaller: |_| Vec::new(),
};

// ---- records

/// Records of every length to 90, with 160 at their start or something near it, and with each field at its ends.
fn records(_: bool) -> Box<dyn Iterator<Item = Data>> {
    let mut draw = Draw::new(31);
    let mut out = Vec::new();
    for length in 0..=90 {
        for magic in [160, 161, 159, 0, -96, 160 + 256, 160 + (1 << 24), i32::MIN + 160] {
            out.push(record_of(&mut draw, length, magic));
        }
    }
    for field in 1..15 {
        for value in [i32::MIN, -1, 0, 1, 255, 256, 65_536, i32::MAX] {
            let mut record = record_of(&mut draw, 60, 160);
            record.0[4 * field..4 * field + 4].copy_from_slice(&value.to_le_bytes());
            out.push(record);
        }
    }
    Box::new(out.into_iter())
}

fn record_of(draw: &mut Draw, length: usize, magic: i32) -> Data {
    let mut out = magic.to_le_bytes().to_vec();
    out.extend(draw.bytes(90));
    out.truncate(length);
    Data(out)
}

fn drawn_record(draw: &mut Draw) -> Data {
    let (any, bit) = (draw.any_i32(), 1 << draw.between(0, 31));
    let magic = draw.pick(&[160, 160, 160, 160, 160, 160 ^ bit, any]);
    let any_length = draw.between(0, 90);
    let length = draw.pick(&[60, 60, 60, 59, 61, 64, 90, any_length]);
    record_of(draw, length as usize, magic)
}

/// Shorter, or with a byte of it 0.
fn smaller_record(Data(record): &Data) -> Vec<Change<Data>> {
    let cut = (0..record.len()).map(|end| Box::new(move |other: &mut Data| other.0.truncate(end)) as Change<_>);
    let zero = record.iter().enumerate().filter(|(_, byte)| **byte != 0);
    cut.chain(zero.map(|(at, _)| Box::new(move |other: &mut Data| other.0[at] = 0) as Change<_>)).collect()
}

fn vector_data(Data(data): &Data, tally: &mut Tally) -> Result<(), String> {
    let mut lent = Guarded::new(data, data.len(), 0);
    let before = lent.clone();
    let mut ours = boundary::field::vector_data(lent.body());
    ours.number = plant::number("vector_data", ours.number);
    ours.delta ^= i32::from(plant::planted("vector_data", Part::Value));
    plant::buffer("vector_data", "data", &mut lent);
    if let Some(text) = lent.difference(&before) {
        return Err(format!("data{text} ({MODEL})"));
    }
    let both = [(MODEL, record::vector_data(data)), (RUST, rust_record(data))];
    for (with, expected) in both.into_iter().filter(|(with, _)| plant::asks(with)) {
        if ours.number != expected.number {
            return Err(format!("number {}, expected {} ({with})", ours.number, expected.number));
        }
        if ours != expected {
            return Err(format!("value {ours:?}, expected {expected:?} ({with})"));
        }
    }
    tally.add("vector_data", ours.number, true);
    Ok(())
}

fn rust_record(data: &[u8]) -> Record {
    match oracle::metadata::vector_data(data) {
        VectorRecord::Ready(data) => from_rust(&data),
        VectorRecord::Invalid | VectorRecord::Missing => Record { number: 1, ..Record::default() },
    }
}

fn from_rust(data: &VectorData) -> Record {
    let overlap = data.origin();
    Record {
        number: 0,
        flags: data.flags,
        block_w: data.block.width,
        block_h: data.block.height,
        width: data.shape.width,
        height: data.shape.height,
        grid_w: data.grid.width,
        grid_h: data.grid.height,
        marker: data.marker,
        selector: data.selector(),
        delta: data.delta,
        overlap_x: overlap.width,
        overlap_y: overlap.height,
    }
}

// ---- the shape of a record

/// Each record as it is read, and its values beside the other number.
fn read_records(small: bool) -> Box<dyn Iterator<Item = Record>> {
    Box::new(records(small).flat_map(|Data(data)| {
        let read = record::vector_data(&data);
        [read, Record { number: 1 - read.number, ..read }]
    }))
}

/// Any values beside any number.
fn drawn_values(draw: &mut Draw) -> Record {
    let Data(data) = record_of(draw, RECORD, MAGIC);
    let any = draw.any_i32().cast_unsigned();
    Record { number: draw.pick(&[0, 1, any]), ..record::vector_data(&data) }
}

/// The shape of a record's values, whatever number stands beside them. It answers none: counted is whether the one given is 0.
fn shape_of(given: &Record, tally: &mut Tally) -> Result<(), String> {
    let mut ours = boundary::field::shape_of(*given);
    ours.selector ^= i32::from(plant::planted("shape_of", Part::Value));
    for (with, expected) in [(MODEL, given.shape()), (RUST, rust_shape(given)?)] {
        if plant::asks(with) && ours != expected {
            return Err(format!("value {ours:?}, expected {expected:?} ({with})"));
        }
    }
    tally.add("shape_of", u32::from(given.number != 0), true);
    Ok(())
}

/// The Rust knows no number beside a record's values: it reads them from the bytes of an accepted record.
fn rust_shape(r: &Record) -> Result<Shape, String> {
    let words = [MAGIC, r.flags, r.block_w, r.block_h, r.marker, 0, 0, r.width, r.height];
    let more = [r.overlap_x, r.overlap_y, r.grid_w, r.grid_h, r.selector, r.delta];
    let bytes: Vec<u8> = words.into_iter().chain(more).flat_map(i32::to_le_bytes).collect();
    match oracle::metadata::vector_data(&bytes) {
        VectorRecord::Ready(values) => Ok(Shape::from_fields(shape_numbers(&FieldShape::from_data(&values)))),
        VectorRecord::Invalid | VectorRecord::Missing => Err(format!("the Rust refuses a record of {r:?}")),
    }
}

// ---- sizes

fn shapes(_: bool) -> Box<dyn Iterator<Item = Shape>> {
    let good = boundaries::fields(true).map(|field| field.shape);
    let mut draw = Draw::new(32);
    let large = [(1024, 1024), (1024, 1), (1, 1024)].map(|(grid_w, grid_h)| of_grid(&mut draw, grid_w, grid_h));
    Box::new(good.chain(large))
}

fn drawn_shape(draw: &mut Draw) -> Shape {
    let most = draw.pick(&[4, 40, 1024]);
    let shape = drawn::shape(draw, most);
    if draw.once_in(3) { bad_shape(draw, &shape) } else { shape }
}

/// The sizes by their names; W and H stand last.
const SIZE_NAMES: [&str; 12] = [
    "backward",
    "forward",
    "table",
    "grid",
    "xs",
    "ys",
    "averages",
    "map",
    "history",
    "mask",
    "packed_width",
    "packed_height",
];

/// Those that the Rust has n, W and H for.
const RUST_SIZE_NAMES: [&str; 10] =
    ["backward", "forward", "grid", "xs", "ys", "averages", "map", "mask", "packed_width", "packed_height"];

/// Each size as a part of the answer.
pub fn size_parts() -> [Part; 12] {
    SIZE_NAMES.map(Part::Named)
}

/// Those that are compared with the Rust.
pub fn rust_size_parts() -> [Part; 10] {
    RUST_SIZE_NAMES.map(Part::Named)
}

fn sizes(shape: &Shape, tally: &mut Tally) -> Result<(), String> {
    let answer = boundary::field::sizes(*shape);
    let number = plant::number("sizes", answer.number);
    let ours = named(&answer).map(|(name, size)| {
        let changed = usize::from(plant::planted("sizes", Part::Named(name)));
        (name, size ^ changed)
    });
    let expected = sizes_of(shape);
    if plant::asks(MODEL) && number != expected.number {
        return Err(format!("number {number}, expected {} ({MODEL})", expected.number));
    }
    if plant::asks(MODEL) {
        same_sizes(MODEL, &ours, &named(&expected))?;
    }
    if expected.number == 0 {
        same_sizes(RUST, &ours, &rust_sizes(shape))?;
    }
    tally.add("sizes", number, expected.number == 0);
    Ok(())
}

/// An answer's sizes with their names.
fn named(sizes: &Sizes) -> [(&'static str, usize); 12] {
    let mut values = sizes.least.into_iter().chain([sizes.packed_width, sizes.packed_height]);
    SIZE_NAMES.map(|name| (name, values.next().unwrap_or_default()))
}

/// What follows from the Rust's n, W and H.
fn rust_sizes(shape: &Shape) -> Vec<(&'static str, usize)> {
    let rust = field_shape(shape);
    let (n, width, height) = (rust.blocks(), rust.packed_width() as usize, rust.packed_height() as usize);
    let size = |name| match name {
        "backward" | "forward" => 8 * n,
        "averages" | "map" => n,
        "grid" => (width + 2) * (height + 2) + 1,
        "packed_width" => width,
        "packed_height" => height,
        _ => width * height,
    };
    RUST_SIZE_NAMES.iter().map(|&name| (name, size(name))).collect()
}

/// The first of the expected sizes that ours is not equal to.
fn same_sizes(with: &str, ours: &[(&str, usize)], expected: &[(&str, usize)]) -> Result<(), String> {
    expected.iter().try_for_each(|(name, size)| match ours.iter().find(|(other, _)| other == name) {
        Some((_, ours)) if ours == size => Ok(()),
        other => Err(format!("{name} {}, expected {size} ({with})", other.map_or(0, |(_, ours)| *ours))),
    })
}
