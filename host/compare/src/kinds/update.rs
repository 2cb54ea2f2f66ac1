//! `update`: the Rust says yes or no, the model which number; both say the sets.

use draw::Draw;
use model::drawn::{damaged, payload};
use model::fields;

use crate::boundaries;
use crate::field::Field;
use crate::kinds::{rust_field, same};
use crate::lent::{Beside, Lent};
use crate::plant::{self, MODEL, RUST};
use crate::rust;
use crate::tally::Tally;
use crate::tried::Kind;

pub const BESIDE: &[Beside] = &[Beside::Payload];

pub const UPDATE: Kind<Field> = Kind {
    call: "update",
    drawn: 3_000_000,
    boundaries: boundaries::payloads,
    draw: drawn,
    check,
    smaller: Field::smaller,
};

/// Whole payloads and damaged ones, for any shape.
fn drawn(draw: &mut Draw) -> Field {
    let mut field = Field::drawn(draw);
    let shape = field.shape;
    field.payload = match draw.between(0, 2) {
        _ if !shape.accepted() => draw.bytes(80),
        0 => payload(draw, &shape),
        _ => damaged(draw, &shape),
    };
    field
}

fn check(field: &Field, tally: &mut Tally) -> Result<(), String> {
    let shape = field.shape;
    let mut ours = Lent::new(field, BESIDE);
    let mut expected = ours.clone();
    let number = plant::number(
        "update",
        boundary::field::update(shape, ours.payload.body(), ours.backward.body_mut(), ours.forward.body_mut()),
    );
    ours.plant("update");
    let (payload, backward, forward) =
        (expected.payload.clone(), expected.backward.body_mut(), expected.forward.body_mut());
    let model = fields::update(&shape, payload.body(), backward, forward);
    same(MODEL, (number, &ours), (model, &expected))?;
    let within = !matches!(model, 2 | 3);
    if within {
        let (accepted, expected) = by_rust(field)?;
        if plant::asks(RUST) && accepted != (number == 0) {
            return Err(format!("number {number}, expected to be 0: {accepted} ({RUST})"));
        }
        same(RUST, (number, &ours), (number, &expected))?;
    }
    tally.add("update", number, within);
    Ok(())
}

/// What the Rust leaves, over buffers as they were.
fn by_rust(field: &Field) -> Result<(bool, Lent), String> {
    let mut lent = Lent::new(field, BESIDE);
    let mut rust = rust_field(field, &lent);
    let accepted = rust::ran(|| rust.update(lent.payload.body()))?;
    let (backward, forward) = rust.sets();
    for (set, body) in [(backward, lent.backward.body_mut()), (forward, lent.forward.body_mut())] {
        let bytes = oracle::inputs::entry_bytes(set);
        body[..bytes.len()].copy_from_slice(&bytes);
    }
    Ok((accepted, lent))
}
