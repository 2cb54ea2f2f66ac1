//! `avg_luma`, `pack`, `quality_map` and `quality`.

use model::fields;

use crate::field::Field;
use crate::kinds::{by_each, field_kind, rust_field, same};
use crate::lent::{Beside, Lent};
use crate::plant::{self, MODEL, Part, RUST};
use crate::rust;
use crate::tally::Tally;
use crate::tried::Kind;

pub const LUMA_BESIDE: &[Beside] = &[Beside::Table, Beside::Averages];
pub const PACK_BESIDE: &[Beside] = &[Beside::Planes];
pub const MAP_BESIDE: &[Beside] = &[Beside::Averages, Beside::Map];
pub const CLASS_BESIDE: &[Beside] = &[Beside::Averages];

pub const AVG_LUMA: Kind<Field> = field_kind("avg_luma", 2_000_000, avg_luma);
pub const PACK: Kind<Field> = field_kind("pack", 3_000_000, pack);
pub const QUALITY_MAP: Kind<Field> = field_kind("quality_map", 3_000_000, quality_map);
pub const QUALITY: Kind<Field> = field_kind("quality", 3_000_000, quality);

fn avg_luma(f: &Field, tally: &mut Tally) -> Result<(), String> {
    by_each(
        ("avg_luma", LUMA_BESIDE),
        (f, tally),
        |l| {
            let (backward, forward) = (l.backward.body(), l.forward.body());
            boundary::field::avg_luma(f.shape, backward, forward, l.table.body(), l.averages.body_mut())
        },
        |before, l| fields::avg_luma(&f.shape, before.sets(), before.table.body(), l.averages.body_mut()),
        |field, before, l| {
            let mut table = [0; 511];
            table.copy_from_slice(&before.table.body()[..511]);
            field.avg_luma(l.averages.body_mut(), &table);
        },
    )
}

fn pack(f: &Field, tally: &mut Tally) -> Result<(), String> {
    by_each(
        ("pack", PACK_BESIDE),
        (f, tally),
        |l| {
            let (backward, forward) = (l.backward.body(), l.forward.body());
            boundary::field::pack(f.shape, f.side, backward, forward, l.xs.body_mut(), l.ys.body_mut())
        },
        |before, l| fields::pack(&f.shape, f.side, before.sets(), l.xs.body_mut(), l.ys.body_mut()),
        |field, _, l| {
            let (width, height) = rust::size(&f.shape);
            field.pack(f.side == 1, l.xs.body_mut(), l.ys.body_mut(), width, height);
        },
    )
}

fn quality_map(f: &Field, tally: &mut Tally) -> Result<(), String> {
    by_each(
        ("quality_map", MAP_BESIDE),
        (f, tally),
        |l| {
            let (backward, forward, averages) = (l.backward.body(), l.forward.body(), l.averages.body());
            boundary::field::quality_map(f.shape, f.side, f.limits, backward, forward, averages, l.map.body_mut())
        },
        |before, l| {
            let averages = before.averages.body();
            fields::quality_map(&f.shape, f.side, &f.limits, before.sets(), averages, l.map.body_mut())
        },
        |field, before, l| {
            let limits = rust::scene_limits(&f.limits);
            field.quality_map(f.side == 1, &limits, before.averages.body(), l.map.body_mut());
        },
    )
}

fn quality(f: &Field, tally: &mut Tally) -> Result<(), String> {
    let before = Lent::new(f, CLASS_BESIDE);
    let mut ours = before.clone();
    let mut class = boundary::field::quality(
        f.shape,
        f.side,
        f.limits,
        ours.backward.body(),
        ours.forward.body(),
        ours.averages.body(),
    );
    class.number = plant::number("quality", class.number);
    class.value ^= u32::from(plant::planted("quality", Part::Value));
    ours.plant("quality");
    let expected = fields::quality(&f.shape, f.side, &f.limits, before.sets(), before.averages.body());
    same(MODEL, (class.number, &ours), (expected.number, &before))?;
    if plant::asks(MODEL) && class.value != expected.value {
        return Err(format!("value {}, expected {} ({MODEL})", class.value, expected.value));
    }
    if expected.number == 0 {
        let limits = rust::scene_limits(&f.limits);
        let value = rust::ran(|| rust_field(f, &before).quality(f.side == 1, &limits, before.averages.body()))?;
        if i64::from(value) != i64::from(class.value) {
            return Err(format!("value {}, expected {value} ({RUST})", class.value));
        }
    }
    tally.add("quality", class.number, expected.number == 0);
    Ok(())
}
