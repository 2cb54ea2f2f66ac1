//! The unchanged Rust's two builds, over the table of C functions that each gives.

use std::ffi::c_void;

use crate::fields::{Field, LIMITS};
use crate::table::Calls;

unsafe extern "C" {
    fn svpflow_base() -> Calls;
    fn svpflow_native() -> Calls;
}

/// A field of one build.
pub struct Rust {
    calls: Calls,
    field: *mut c_void,
}

impl Drop for Rust {
    fn drop(&mut self) {
        unsafe { (self.calls.free)(self.field) }
    }
}

// A field lives as long as its `Rust`; every slice has the length that is passed with it.
impl Rust {
    /// The same field at -O, and with this machine's own instructions.
    pub fn both(f: &Field) -> [Self; 2] {
        Self::with_sets(f, &f.backward, &f.forward)
    }

    /// The same of a field whose vectors are zero.
    pub fn both_zero(f: &Field) -> [Self; 2] {
        let zeros = vec![0; f.backward.len()];
        Self::with_sets(f, &zeros, &zeros)
    }

    /// The sets are as long as the field's.
    fn with_sets(f: &Field, backward: &[u8], forward: &[u8]) -> [Self; 2] {
        let shape = f.shape.fields();
        unsafe { [svpflow_base(), svpflow_native()] }.map(|calls| {
            let field = unsafe { (calls.new)(&raw const shape, backward.as_ptr(), forward.as_ptr(), f.backward.len()) };
            Self { calls, field }
        })
    }

    /// The backward and the forward set as bytes.
    pub fn sets(&self, size: usize) -> [Vec<u8>; 2] {
        let [mut backward, mut forward] = [(); 2].map(|()| vec![0; size]);
        unsafe { (self.calls.sets)(self.field, backward.as_mut_ptr(), forward.as_mut_ptr(), size) }
        [backward, forward]
    }

    pub fn update(&mut self, payload: &[u8]) -> bool {
        unsafe { (self.calls.update)(self.field, payload.as_ptr(), payload.len()) }
    }

    pub fn avg_luma(&self, table: &[u8; 511], out: &mut [u8]) {
        unsafe { (self.calls.avg_luma)(self.field, &raw const *table, out.as_mut_ptr(), out.len()) }
    }

    /// `averages` and `map` are n bytes each.
    pub fn quality_map(&self, backward: bool, averages: &[u8], map: &mut [u8]) {
        let limits = LIMITS.fields();
        let n = averages.len().min(map.len());
        unsafe {
            (self.calls.quality_map)(self.field, backward, &raw const limits, averages.as_ptr(), map.as_mut_ptr(), n);
        }
    }

    pub fn quality(&self, backward: bool, averages: &[u8]) -> i32 {
        let limits = LIMITS.fields();
        unsafe { (self.calls.quality)(self.field, backward, &raw const limits, averages.as_ptr(), averages.len()) }
    }

    /// Both planes have W × H cells.
    pub fn pack(&self, backward: bool, xs: &mut [u16], ys: &mut [u16]) {
        let cells = xs.len().min(ys.len());
        unsafe { (self.calls.pack)(self.field, backward, xs.as_mut_ptr(), ys.as_mut_ptr(), cells) }
    }

    /// An empty mask leaves the scatter alone.
    pub fn cover_mask(&mut self, forward: bool, mask: &mut [u8], cover: i32, time: i32) {
        unsafe { (self.calls.cover_mask)(self.field, forward, mask.as_mut_ptr(), mask.len(), cover, time) }
    }

    pub fn sad_mask(&self, backward: bool, mask: &mut [u8], scale: f64) {
        unsafe { (self.calls.sad_mask)(self.field, backward, mask.as_mut_ptr(), mask.len(), scale) }
    }

    /// The grid after a cover mask.
    pub fn scratch(&self, cells: usize) -> Vec<i32> {
        let mut out = vec![0; cells];
        unsafe { (self.calls.scratch)(self.field, out.as_mut_ptr(), cells) }
        out
    }
}
