//! The kept class on any session: beside the model's, and where blocks can have the counts, beside the Rust's class of such blocks.

use draw::Draw;
use model::calls;
use model::drawn;
use model::entry::Entry;
use model::fields::Class;
use model::session::{Counts, Limits, Session};
use model::shape::{Axis, Shape};

use crate::boundaries;
use crate::plant::{self, MODEL, Part, RUST};
use crate::rust;
use crate::session::drawn::{any_session, spoil_session};
use crate::session::smaller::plainer_sessions;
use crate::tally::Tally;
use crate::tried::{Change, Kind};

pub const KEPT_CLASS: Kind<Session> =
    Kind { call: "kept_class", drawn: 3_000_000, boundaries: sessions, draw: drawn_session, check, smaller };

/// What the archive answers, with what is planted under a name.
pub fn answered(name: &str, session: Session) -> Class {
    let mut class = boundary::session::kept_class(session);
    class.number = plant::number(name, class.number);
    class.value ^= u32::from(plant::planted(name, Part::Value));
    class
}

/// Number and class beside those that are expected.
pub fn same(with: &str, ours: Class, expected: Class) -> Result<(), String> {
    if !plant::asks(with) {
        return Ok(());
    }
    if ours.number != expected.number {
        return Err(format!("kept class number {}, expected {} ({with})", ours.number, expected.number));
    }
    if ours.value != expected.value {
        return Err(format!("kept class value {}, expected {} ({with})", ours.value, expected.value));
    }
    Ok(())
}

fn check(session: &Session, tally: &mut Tally) -> Result<(), String> {
    let (ours, expected) = (answered("kept_class", *session), calls::kept_class(*session));
    same(MODEL, ours, expected)?;
    let by_rust = if expected.number == 0 { by_rust(session)? } else { None };
    if let Some(value) = by_rust {
        same(RUST, ours, Class { number: 0, value })?;
    }
    tally.add("kept_class", ours.number, by_rust.is_some());
    Ok(())
}

/// The Rust's class of blocks that have the counts of an accepted session; none where no blocks do.
fn by_rust(session: &Session) -> Result<Option<u32>, String> {
    let (shape, Counts { counted, scene, m2, m1 }) = (session.shape, session.kept);
    let Some(low) = counted.checked_sub(scene + m2 + m1) else { return Ok(None) };
    // By an average of 255 the score is the sad.
    let limits = Limits { blocks: session.limits.blocks, zero: 1, m1: 2, m2: 3, scene: 4 };
    let scores = [(4, scene), (3, m2), (2, m1), (1, low), (0, shape.blocks() as u32 - counted)];
    let set = scores.map(|(sad, count)| Entry { sad, ..Entry::default() }.bytes().repeat(count as usize)).concat();
    let (field, averages) = (rust::field(&shape, &set, &set), vec![255; shape.blocks()]);
    rust::ran(|| field.quality(true, &rust::scene_limits(&limits), &averages).cast_unsigned()).map(Some)
}

// ---- inputs

fn sessions(small: bool) -> Box<dyn Iterator<Item = Session>> {
    let large = if small { None } else { Some((1024, 1024)) };
    let grids = [(1, 1), (2, 2), (17, 1), (1, 33)].into_iter().chain(large);
    Box::new(carried().into_iter().chain(shares()).chain(grids.flat_map(counts)))
}

/// An accepted session of so many blocks, half of which count.
fn good(shape: Shape) -> Session {
    let n = shape.blocks() as u32;
    let kept = Counts { counted: n.div_ceil(2), scene: n / 6, m2: n / 8, m1: n / 10 };
    Session { shape, side: 1, limits: Limits::USUAL, time: 256, past: 0, future: 0, kept }
}

fn of_grid(grid_w: i32, grid_h: i32) -> Session {
    good(Shape::of_axes(Axis::covering(8, 2, grid_w, 1), Axis::covering(4, 0, grid_h, 0), 1))
}

/// What a session carries about its limits, with good counts and with a bad one; then every mixture of what is refused.
fn carried() -> Vec<Session> {
    let usual = good(boundaries::usual());
    let mut out = Vec::new();
    for (field, values) in boundaries::shape_values() {
        for value in values {
            let mut fields = usual.shape.fields();
            fields[field] = value;
            out.push(Session { shape: Shape::from_fields(fields), ..usual });
        }
    }
    out.extend([0, 1, 2, 3, 256, 257, u32::MAX].map(|side| Session { side, ..usual }));
    out.extend([65_535, 65_536, -65_535, -65_536, i32::MIN, i32::MAX].map(|time| Session { time, ..usual }));
    let steps = [(0, u32::MAX), (u32::MAX, 0), (u32::MAX, u32::MAX), (4096, 1)];
    out.extend(steps.map(|(past, future)| Session { past, future, ..usual }));
    let bad = out.iter().map(|session| Session { kept: Counts { m1: u32::MAX, ..session.kept }, ..*session });
    out.extend(bad.collect::<Vec<_>>());
    out.extend((0..16).map(|mixture| refused(usual, mixture)));
    out
}

/// Bits 0 to 3 of a mixture: a bad shape, side, time and count.
fn refused(mut session: Session, mixture: u32) -> Session {
    if mixture & 1 != 0 {
        session.shape.pel = 0;
    }
    if mixture & 2 != 0 {
        session.side = 0;
    }
    if mixture & 4 != 0 {
        session.time = 65_536;
    }
    if mixture & 8 != 0 {
        session.kept.counted = session.shape.blocks() as u32 + 1;
    }
    session
}

/// Shares about each sum that a class asks for, of 99, 100 and 101 blocks and of 199, whose share has a rest.
fn shares() -> impl Iterator<Item = Session> {
    let shares = [-100, -1, 0, 1, 19, 20, 21, 22, 49, 50, 51, 52, 89, 90, 91, 92, 100, 101];
    [99, 100, 101, 199].into_iter().flat_map(move |counted: i32| {
        let kept = Counts { counted: counted.cast_unsigned(), scene: 20, m2: 30, m1: 40 };
        shares.into_iter().flat_map(move |share| {
            let near = 100 * share / counted;
            [share, near, near + 1].map(|blocks| {
                let limits = Limits { blocks, ..Limits::USUAL };
                Session { limits, kept, ..of_grid(20, 10) }
            })
        })
    })
}

/// Each count at and beside its ends, the others good or 0, with the limit `blocks` at its ends and where the product wraps.
fn counts((grid_w, grid_h): (i32, i32)) -> impl Iterator<Item = Session> {
    let good = of_grid(grid_w, grid_h);
    let n = good.shape.blocks() as u32;
    let values = [0, 1, n - 1, n, n + 1, 1 << 31, u32::MAX];
    let ends = [i32::MIN, i32::MIN + 1, -101, -1, 0, 1, 20, 100, 101, 65_536, 1 << 30, i32::MAX - 1, i32::MAX];
    (0..4).flat_map(move |at| {
        values.into_iter().flat_map(move |value| {
            [good.kept, Counts::default()].into_iter().flat_map(move |others| {
                let mut kept = others.fields();
                kept[at] = value;
                let kept = Counts::from_fields(kept);
                ends.map(|blocks| Session { limits: Limits { blocks, ..good.limits }, kept, ..good })
            })
        })
    })
}

/// Most are accepted or refused by 12; what comes before it is met now and then.
fn drawn_session(draw: &mut Draw) -> Session {
    let most = draw.pick(&[2, 4, 12]);
    let shape = drawn::shape(draw, most);
    let mut session = any_session(draw, shape);
    if draw.once_in(2) {
        session.limits.blocks = near_share(draw, &session.kept);
    }
    if draw.once_in(8) {
        spoil_session(draw, &mut session);
    }
    session
}

/// A limit whose share is one of the sums that a class asks for, or about it.
fn near_share(draw: &mut Draw, kept: &Counts) -> i32 {
    let [counted, scene, m2, m1] = kept.fields().map(i64::from);
    let sum = draw.pick(&[scene, scene + m2, scene + m2 + m1]);
    (100 * sum / counted.max(1) + i64::from(draw.between(-1, 1))) as i32
}

fn smaller(session: &Session) -> Vec<Change<Session>> {
    let plainer = plainer_sessions(session).into_iter();
    plainer.map(|plain| Box::new(move |other: &mut Session| *other = plain) as Change<_>).collect()
}

#[cfg(test)]
mod tests {
    use std::collections::BTreeSet;

    use super::*;

    #[test]
    fn every_number_and_every_class_is_met_and_the_rust_has_each_class() {
        let (mut met, mut rust) = (BTreeSet::new(), BTreeSet::new());
        for session in sessions(true) {
            let Class { number, value } = calls::kept_class(session);
            met.insert((number, value));
            if number == 0 {
                rust.extend(by_rust(&session).unwrap());
            }
        }
        let classes = [0, 1, 2, 3].map(|class| (0, class));
        let numbers = [2, 7, 8, 12].map(|number| (number, 0));
        assert_eq!(met, classes.into_iter().chain(numbers).collect());
        assert_eq!(rust, BTreeSet::from([0, 1, 2, 3]));
    }
}
