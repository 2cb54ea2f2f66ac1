//! Each call that knows no session.

mod data;
mod maps;
mod masks;
mod update;

use std::fmt::Debug;

use oracle::smooth::VectorField;

use crate::boundaries;
use crate::field::Field;
use crate::lent::{Beside, Lent, parts};
use crate::options::Options;
use crate::plant::{self, Found, MODEL, Part, RUST};
use crate::rust;
use crate::tally::Tally;
use crate::tried::Kind;

/// The calls over two sets, with what each is lent beside them.
const FIELD_CALLS: [(Kind<Field>, &[Beside]); 7] = [
    (update::UPDATE, update::BESIDE),
    (maps::AVG_LUMA, maps::LUMA_BESIDE),
    (maps::PACK, maps::PACK_BESIDE),
    (maps::QUALITY_MAP, maps::MAP_BESIDE),
    (maps::QUALITY, maps::CLASS_BESIDE),
    (masks::COVER_MASK, masks::COVER_BESIDE),
    (masks::SAD_MASK, masks::SAD_BESIDE),
];

/// A kind with as many drawn inputs as the command says.
fn sized<I>(kind: Kind<I>, options: &Options) -> Kind<I> {
    Kind { drawn: options.cases.unwrap_or(kind.drawn), ..kind }
}

pub fn run<I: Clone + Debug>(kind: Kind<I>, options: &Options, tally: &mut Tally) -> Result<(), String> {
    if options.wants(kind.call) { sized(kind, options).run(options, tally) } else { Ok(()) }
}

pub fn compared(options: &Options, tally: &mut Tally) -> Result<(), String> {
    run(data::VECTOR_DATA, options, tally)?;
    run(data::SHAPE_OF, options, tally)?;
    run(data::SIZES, options, tally)?;
    FIELD_CALLS.into_iter().try_for_each(|(kind, _)| run(kind, options, tally))
}

/// Every part for the model to find; then, with the model's comparison left out, those that the Rust has too.
pub fn planted(options: &Options, found: &mut Found) {
    let (number, value) = (Part::Number, Part::Value);
    let data = plant::parts(&[number, value], ["data"]);
    plant_each(&data::VECTOR_DATA, &data, &[number, value], options, found);
    plant_each(&data::SHAPE_OF, &[value], &[value], options, found);
    let sizes = [&[number], &data::size_parts()[..]].concat();
    plant_each(&data::SIZES, &sizes, &data::rust_size_parts(), options, found);
    for (kind, beside) in FIELD_CALLS {
        let mut all = parts(beside);
        if kind.call == "quality" {
            all.push(value);
            plant_each(&kind, &all, &[value], options, found);
        } else {
            plant_each(&kind, &all, &all, options, found);
        }
    }
}

pub fn plant_each<I: Clone + Debug>(
    kind: &Kind<I>,
    by_model: &[Part],
    by_rust: &[Part],
    options: &Options,
    found: &mut Found,
) {
    if options.wants(kind.call) {
        kind.plant((MODEL, kind.call), by_model, options, found);
        kind.plant((RUST, kind.call), by_rust, options, found);
    }
}

/// Numbers and buffers beside those that are expected.
fn same(with: &str, ours: (u32, &Lent), expected: (u32, &Lent)) -> Result<(), String> {
    if !plant::asks(with) {
        return Ok(());
    }
    if ours.0 != expected.0 {
        return Err(format!("number {}, expected {} ({with})", ours.0, expected.0));
    }
    ours.1.difference(expected.1).map_or(Ok(()), |text| Err(format!("{text} ({with})")))
}

/// A call over two sets; all but `update` share their inputs.
const fn field_kind(
    call: &'static str,
    drawn: u64,
    check: fn(&Field, &mut Tally) -> Result<(), String>,
) -> Kind<Field> {
    Kind { call, drawn, boundaries: boundaries::fields, draw: Field::drawn, check, smaller: Field::smaller }
}

/// The Rust's field of what is lent.
fn rust_field(f: &Field, lent: &Lent) -> VectorField {
    rust::field(&f.shape, lent.backward.body(), lent.forward.body())
}

/// Compares a call's number and buffers with the model's, and where it is accepted with the Rust's. Each has a copy of what is lent
/// to write; the model and the Rust read it as it was before.
fn by_each(
    (call, beside): (&'static str, &[Beside]),
    (f, tally): (&Field, &mut Tally),
    ours: impl FnOnce(&mut Lent) -> u32,
    model: impl FnOnce(&Lent, &mut Lent) -> u32,
    rust: impl FnOnce(&VectorField, &Lent, &mut Lent),
) -> Result<(), String> {
    let before = Lent::new(f, beside);
    let mut lent = before.clone();
    let number = plant::number(call, ours(&mut lent));
    lent.plant(call);
    let mut other = before.clone();
    let expected = model(&before, &mut other);
    same(MODEL, (number, &lent), (expected, &other))?;
    if expected == 0 {
        let mut other = before.clone();
        rust::ran(|| rust(&rust_field(f, &before), &before, &mut other))?;
        same(RUST, (number, &lent), (0, &other))?;
    }
    tally.add(call, number, expected == 0);
    Ok(())
}
