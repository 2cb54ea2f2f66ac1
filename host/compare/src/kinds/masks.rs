//! `cover_mask`, with the scratch that then holds the grid, and `sad_mask` with `sharp` 1.0.

use std::hint::black_box;

use model::fields::{self, Scales};

use crate::field::Field;
use crate::kinds::{by_each, field_kind};
use crate::lent::Beside;
use crate::rust;
use crate::tally::Tally;
use crate::tried::Kind;

pub const COVER_BESIDE: &[Beside] = &[Beside::Scratch, Beside::Mask];
pub const SAD_BESIDE: &[Beside] = &[Beside::Mask];

pub const COVER_MASK: Kind<Field> = field_kind("cover_mask", 1_500_000, cover_mask);
pub const SAD_MASK: Kind<Field> = field_kind("sad_mask", 2_000_000, sad_mask);

const fn scales(f: &Field) -> Scales {
    Scales { cover: f.cover, sad_scale: f.sad_scale }
}

fn cover_mask(f: &Field, tally: &mut Tally) -> Result<(), String> {
    by_each(
        ("cover_mask", COVER_BESIDE),
        (f, tally),
        |l| {
            let (backward, forward) = (l.backward.body(), l.forward.body());
            let (scratch, mask) = (l.scratch.body_mut(), l.mask.body_mut());
            let (cover, scale) = (f.cover, f.sad_scale);
            boundary::field::cover_mask(f.shape, f.side, backward, forward, cover, scale, f.time, scratch, mask)
        },
        |before, l| {
            let (scratch, mask) = (l.scratch.body_mut(), l.mask.body_mut());
            fields::cover_mask(&f.shape, f.side, before.sets(), scales(f), f.time, scratch, mask)
        },
        // The flag means forward here. The Rust's scratch has the grid's own length.
        |field, _, l| {
            let (width, height) = rust::size(&f.shape);
            let mut scratch = Vec::new();
            field.cover_mask(&mut scratch, f.side == 2, l.mask.body_mut(), f.cover, f.time, width, height);
            l.scratch.body_mut()[..scratch.len()].copy_from_slice(&scratch);
        },
    )
}

fn sad_mask(f: &Field, tally: &mut Tally) -> Result<(), String> {
    by_each(
        ("sad_mask", SAD_BESIDE),
        (f, tally),
        |l| {
            let (backward, forward) = (l.backward.body(), l.forward.body());
            boundary::field::sad_mask(f.shape, f.side, backward, forward, f.cover, f.sad_scale, l.mask.body_mut())
        },
        |before, l| fields::sad_mask(&f.shape, f.side, before.sets(), scales(f), l.mask.body_mut()),
        |field, _, l| {
            let (width, height) = rust::size(&f.shape);
            field.sad_mask(f.side == 1, l.mask.body_mut(), f.sad_scale, black_box(1.0), width, height);
        },
    )
}
