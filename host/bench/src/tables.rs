//! The calls over two sets beside the Rust's.

use crate::clock::{Times, race, ratio, shown, used};
use crate::fields::{Field, LIMITS, PELS, SIZES, TIMES};
use crate::rust::Rust;

pub const SCALE: f64 = 1.0;
pub const COVER: i32 = 100;

/// Results must agree before they are timed.
fn agree(what: &str, same: bool) -> Result<(), String> {
    if same { Ok(()) } else { Err(format!("{what}: the archive and the Rust differ; run compare")) }
}

fn row(head: &str, [ours, base, native]: [Times; 3]) -> String {
    format!(
        "| {head} | {} | {} | {} | {} | {} |\n",
        shown(ours.best),
        shown(base.best),
        ratio(ours, base),
        shown(native.best),
        ratio(ours, native)
    )
}

/// The calls that depend on neither time nor pel.
pub fn still() -> Result<String, String> {
    let mut out = String::from("## Calls that depend on neither time nor pel\n\n");
    out +=
        "| call | field | ours | Rust -O | ours / Rust, best / median | Rust native | ours / Rust, best / median |\n";
    out += "|---|---|---|---|---|---|---|\n";
    let fields: Vec<Field> = SIZES.into_iter().map(|size| Field::new(size, 1)).collect();
    let calls: [(&str, Timed); 6] = [
        ("update", update),
        ("avg_luma", avg_luma),
        ("quality_map", quality_map),
        ("quality", quality),
        ("pack", pack),
        ("sad_mask", sad_mask),
    ];
    for (name, timed) in calls {
        for field in &fields {
            eprintln!("{name}: {}", field.name);
            out += &row(&format!("{name} | {}", field.name), timed(field)?);
        }
    }
    Ok(out)
}

type Timed = fn(&Field) -> Result<[Times; 3], String>;

fn update(f: &Field) -> Result<[Times; 3], String> {
    // From zeros, so that a set that is not copied is seen.
    let [mut base, mut native] = Rust::both_zero(f);
    let mut sets = [(); 2].map(|()| vec![0; f.backward.len()]);
    let ours = |[backward, forward]: &mut [Vec<u8>; 2]| boundary::field::update(f.shape, &f.payload, backward, forward);
    let accepted = ours(&mut sets) == 0 && base.update(&f.payload) && native.update(&f.payload);
    let same = [&base, &native].iter().all(|rust| rust.sets(f.backward.len()) == sets);
    agree("update", accepted && same && sets == [&f.backward[..], &f.forward[..]])?;
    Ok(race([&mut || used(ours(&mut sets)), &mut || used(base.update(&f.payload)), &mut || {
        used(native.update(&f.payload))
    }]))
}

fn avg_luma(f: &Field) -> Result<[Times; 3], String> {
    let [base, native] = Rust::both(f);
    let n = f.shape.blocks();
    let [mut a, mut b, mut c] = [(); 3].map(|()| vec![0; n]);
    let ours = |out: &mut [u8]| boundary::field::avg_luma(f.shape, &f.backward, &f.forward, &f.table, out);
    base.avg_luma(&f.table, &mut b);
    native.avg_luma(&f.table, &mut c);
    agree("avg_luma", ours(&mut a) == 0 && a == b && a == c)?;
    Ok(race([&mut || used(ours(&mut a)), &mut || base.avg_luma(&f.table, &mut b), &mut || {
        native.avg_luma(&f.table, &mut c)
    }]))
}

fn quality_map(f: &Field) -> Result<[Times; 3], String> {
    let [base, native] = Rust::both(f);
    let [mut a, mut b, mut c] = [(); 3].map(|()| vec![0; f.shape.blocks()]);
    let ours =
        |map: &mut [u8]| boundary::field::quality_map(f.shape, 1, LIMITS, &f.backward, &f.forward, &f.averages, map);
    base.quality_map(true, &f.averages, &mut b);
    native.quality_map(true, &f.averages, &mut c);
    agree("quality_map", ours(&mut a) == 0 && a == b && a == c)?;
    Ok(race([&mut || used(ours(&mut a)), &mut || base.quality_map(true, &f.averages, &mut b), &mut || {
        native.quality_map(true, &f.averages, &mut c)
    }]))
}

fn quality(f: &Field) -> Result<[Times; 3], String> {
    let [base, native] = Rust::both(f);
    let ours = || boundary::field::quality(f.shape, 1, LIMITS, &f.backward, &f.forward, &f.averages);
    let class = ours();
    let same = |rust: &Rust| i64::from(rust.quality(true, &f.averages)) == i64::from(class.value);
    agree("quality", class.number == 0 && same(&base) && same(&native))?;
    Ok(race([&mut || used(ours()), &mut || used(base.quality(true, &f.averages)), &mut || {
        used(native.quality(true, &f.averages))
    }]))
}

fn pack(f: &Field) -> Result<[Times; 3], String> {
    let [base, native] = Rust::both(f);
    let [mut xs, mut ys, mut bx, mut by, mut cx, mut cy] = [(); 6].map(|()| vec![0; f.shape.plane_size()]);
    let ours = |xs: &mut [u16], ys: &mut [u16]| boundary::field::pack(f.shape, 1, &f.backward, &f.forward, xs, ys);
    base.pack(true, &mut bx, &mut by);
    native.pack(true, &mut cx, &mut cy);
    agree("pack", ours(&mut xs, &mut ys) == 0 && xs == bx && ys == by && xs == cx && ys == cy)?;
    Ok(race([&mut || used(ours(&mut xs, &mut ys)), &mut || base.pack(true, &mut bx, &mut by), &mut || {
        native.pack(true, &mut cx, &mut cy)
    }]))
}

fn sad_mask(f: &Field) -> Result<[Times; 3], String> {
    let [base, native] = Rust::both(f);
    let [mut a, mut b, mut c] = [(); 3].map(|()| vec![0; f.shape.plane_size()]);
    let ours = |mask: &mut [u8]| boundary::field::sad_mask(f.shape, 1, &f.backward, &f.forward, COVER, SCALE, mask);
    base.sad_mask(true, &mut b, SCALE);
    native.sad_mask(true, &mut c, SCALE);
    agree("sad_mask", ours(&mut a) == 0 && a == b && a == c)?;
    Ok(race([&mut || used(ours(&mut a)), &mut || base.sad_mask(true, &mut b, SCALE), &mut || {
        native.sad_mask(true, &mut c, SCALE)
    }]))
}

/// The cover mask, which scatters, at each time and pel.
pub fn moving() -> Result<String, String> {
    let mut out = String::from("## cover_mask\n\n");
    out += "| field | pel | T | ours | Rust -O | ours / Rust, best / median | Rust native | ours / Rust, best / median |\n";
    out += "|---|---|---|---|---|---|---|---|\n";
    for size in SIZES {
        for pel in PELS {
            let field = Field::new(size, pel);
            for time in TIMES {
                eprintln!("cover_mask: {}, pel {pel}, T {time}", field.name);
                out += &row(&format!("{} | {pel} | {time}", field.name), cover_mask(&field, time)?);
            }
        }
    }
    Ok(out)
}

fn cover_mask(f: &Field, time: i32) -> Result<[Times; 3], String> {
    let [mut base, mut native] = Rust::both(f);
    let [mut a, mut b, mut c] = [(); 3].map(|()| vec![0; f.shape.plane_size()]);
    let mut scratch = vec![0; f.shape.grid_size()];
    let ours = |scratch: &mut [i32], mask: &mut [u8]| {
        boundary::field::cover_mask(f.shape, 1, &f.backward, &f.forward, COVER, SCALE, time, scratch, mask)
    };
    base.cover_mask(false, &mut b, COVER, time);
    native.cover_mask(false, &mut c, COVER, time);
    let same = ours(&mut scratch, &mut a) == 0 && a == b && a == c;
    agree("cover_mask", same && scratch == base.scratch(scratch.len()) && scratch == native.scratch(scratch.len()))?;
    Ok(race([
        &mut || used(ours(&mut scratch, &mut a)),
        &mut || base.cover_mask(false, &mut b, COVER, time),
        &mut || native.cover_mask(false, &mut c, COVER, time),
    ]))
}
