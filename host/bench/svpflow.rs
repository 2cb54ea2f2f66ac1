//! The unchanged Rust behind a table of C functions; build.rs builds it twice.

#![allow(clippy::missing_safety_doc)]

include!(env!("UNCHANGED"));

#[path = "table.rs"]
mod table;

use std::ffi::c_void;
use std::hint::black_box;
use std::slice::{from_raw_parts, from_raw_parts_mut};

use smooth::{FieldShape, SceneLimits, VectorField, entries};
use table::Calls;

struct Field {
    field: VectorField,
    scratch: Vec<i32>,
    size: (i32, i32),
}

// Each function trusts the bench: a field that `new` made, and slices of the lengths given.

unsafe fn at<'a>(field: *const c_void) -> &'a Field {
    unsafe { &*field.cast() }
}

unsafe fn at_mut<'a>(field: *mut c_void) -> &'a mut Field {
    unsafe { &mut *field.cast() }
}

const fn limits(f: &[i32; 5]) -> SceneLimits {
    SceneLimits { blocks: f[0], zero: f[1], m1: f[2], m2: f[3], scene: f[4] }
}

unsafe extern "C" fn new(
    shape: *const [i32; 11],
    backward: *const u8,
    forward: *const u8,
    size: usize,
) -> *mut c_void {
    let [flags, block_w, block_h, pel, width, height, overlap_x, overlap_y, grid_w, grid_h, selector] = unsafe { *shape };
    let shape =
        FieldShape { flags, block_w, block_h, pel, width, height, overlap_x, overlap_y, grid_w, grid_h, selector };
    let (backward, forward) = unsafe { (from_raw_parts(backward, size), from_raw_parts(forward, size)) };
    let field = VectorField::from_sets(shape, entries(backward), entries(forward));
    let size = (shape.packed_width(), shape.packed_height());
    Box::into_raw(Box::new(Field { field, scratch: Vec::new(), size })).cast()
}

unsafe extern "C" fn free(field: *mut c_void) {
    drop(unsafe { Box::from_raw(field.cast::<Field>()) });
}

unsafe extern "C" fn update(field: *mut c_void, payload: *const u8, size: usize) -> bool {
    unsafe { at_mut(field).field.update(from_raw_parts(payload, size)) }
}

unsafe extern "C" fn sets(field: *const c_void, backward: *mut u8, forward: *mut u8, size: usize) {
    let (b, f) = unsafe { at(field) }.field.sets();
    for (set, out) in [(b, backward), (f, forward)] {
        for (v, bytes) in set.iter().zip(unsafe { from_raw_parts_mut(out, size) }.chunks_exact_mut(8)) {
            let (y, x, sad) = (v.y.to_le_bytes(), v.x.to_le_bytes(), v.sad.to_le_bytes());
            bytes.copy_from_slice(&[y[0], y[1], x[0], x[1], sad[0], sad[1], sad[2], v.luma]);
        }
    }
}

unsafe extern "C" fn avg_luma(field: *const c_void, table: *const [u8; 511], out: *mut u8, n: usize) {
    unsafe { at(field).field.avg_luma(from_raw_parts_mut(out, n), &*table) }
}

unsafe extern "C" fn quality_map(
    field: *const c_void,
    backward: bool,
    l: *const [i32; 5],
    luma: *const u8,
    out: *mut u8,
    n: usize,
) {
    unsafe {
        at(field).field.quality_map(backward, &limits(&*l), from_raw_parts(luma, n), from_raw_parts_mut(out, n));
    }
}

unsafe extern "C" fn quality(
    field: *const c_void,
    backward: bool,
    l: *const [i32; 5],
    luma: *const u8,
    n: usize,
) -> i32 {
    unsafe { at(field).field.quality(backward, &limits(&*l), from_raw_parts(luma, n)) }
}

unsafe extern "C" fn pack(field: *const c_void, backward: bool, xs: *mut u16, ys: *mut u16, cells: usize) {
    unsafe {
        let f = at(field);
        f.field.pack(backward, from_raw_parts_mut(xs, cells), from_raw_parts_mut(ys, cells), f.size.0, f.size.1);
    }
}

unsafe extern "C" fn cover_mask(
    field: *mut c_void,
    forward: bool,
    mask: *mut u8,
    size: usize,
    cover: i32,
    time: i32,
) {
    unsafe {
        let Field { field, scratch, size: (width, height) } = at_mut(field);
        field.cover_mask(scratch, forward, from_raw_parts_mut(mask, size), cover, time, *width, *height);
    }
}

unsafe extern "C" fn sad_mask(field: *const c_void, backward: bool, mask: *mut u8, size: usize, scale: f64) {
    unsafe {
        let f = at(field);
        f.field.sad_mask(backward, from_raw_parts_mut(mask, size), scale, black_box(1.0), f.size.0, f.size.1);
    }
}

unsafe extern "C" fn scratch(field: *const c_void, out: *mut i32, cells: usize) {
    unsafe { from_raw_parts_mut(out, cells).copy_from_slice(&at(field).scratch[..cells]) }
}

const CALLS: Calls =
    Calls { new, free, update, sets, avg_luma, quality_map, quality, pack, cover_mask, sad_mask, scratch };

#[cfg(not(native))]
#[unsafe(no_mangle)]
pub extern "C" fn svpflow_base() -> Calls {
    CALLS
}

#[cfg(native)]
#[unsafe(no_mangle)]
pub extern "C" fn svpflow_native() -> Calls {
    CALLS
}
