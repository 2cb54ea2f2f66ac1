//! The calls of the unchanged Rust as a table of C functions. A field is a pointer to the Rust's own, with a scratch beside it.

use std::ffi::c_void;

#[repr(C)]
pub struct Calls {
    /// Shape, both sets and their bytes.
    pub new: unsafe extern "C" fn(*const [i32; 11], *const u8, *const u8, usize) -> *mut c_void,
    pub free: unsafe extern "C" fn(*mut c_void),
    pub update: unsafe extern "C" fn(*mut c_void, *const u8, usize) -> bool,
    /// Both sets, copied as bytes, and their bytes.
    pub sets: unsafe extern "C" fn(*const c_void, *mut u8, *mut u8, usize),
    pub avg_luma: unsafe extern "C" fn(*const c_void, *const [u8; 511], *mut u8, usize),
    /// Backward, limits, averages, map, n.
    pub quality_map: unsafe extern "C" fn(*const c_void, bool, *const [i32; 5], *const u8, *mut u8, usize),
    pub quality: unsafe extern "C" fn(*const c_void, bool, *const [i32; 5], *const u8, usize) -> i32,
    /// Backward, both planes and their cells.
    pub pack: unsafe extern "C" fn(*const c_void, bool, *mut u16, *mut u16, usize),
    /// Forward, mask and its bytes, cover, time. An empty mask leaves the scatter alone.
    pub cover_mask: unsafe extern "C" fn(*mut c_void, bool, *mut u8, usize, i32, i32),
    /// Backward, mask and its bytes, scale.
    pub sad_mask: unsafe extern "C" fn(*const c_void, bool, *mut u8, usize, f64),
    /// The scratch's cells, copied.
    pub scratch: unsafe extern "C" fn(*const c_void, *mut i32, usize),
}
