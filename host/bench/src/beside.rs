//! Another archive beside this one: both as shared objects, made and loaded alike, so that both are called in the same way.

use std::cell::RefCell;
use std::ffi::{CString, c_char, c_int, c_void};
use std::fs;
use std::os::unix::ffi::OsStrExt;
use std::path::{Path, PathBuf};
use std::process::{Command, id};

use model::shape::Shape;

use crate::clock::{Times, ratio, sampled, shown, used};
use crate::fields::{Field, Size};
use crate::tables::{COVER, SCALE};

/// How many times as many samples are taken as in the tables: a few nanoseconds count.
const MORE: usize = 10;

/// The pel and the time: the fast row is taken.
const AT: (i32, i32) = (1, 128);

/// One block, where what a call does once is most of its time; few; and usual.
const SIZES: [Size; 3] = [("1×1 of 8×8", 1, 1, 8, 0), ("8×8 of 8×8", 8, 8, 8, 0), ("240×135 of 8×8", 240, 135, 8, 0)];

type CoverMask = unsafe extern "C" fn(
    Shape,
    u32,
    *const u8,
    usize,
    *const u8,
    usize,
    i32,
    f64,
    i32,
    *mut i32,
    usize,
    *mut u8,
    usize,
) -> u32;

unsafe extern "C" {
    fn dlopen(file: *const c_char, flags: c_int) -> *mut c_void;
    fn dlsym(library: *mut c_void, name: *const c_char) -> *mut c_void;
}

/// All symbols at once; the names of one object are not seen by the next.
const NOW: c_int = 2;

include!("../../version.rs");

/// A row for each field: the other archive, a second copy of it, which shows how far equal code differs, and this one.
pub fn table(folder: &Path) -> Result<String, String> {
    let (other, ours) = (folder.join("libunit.a"), PathBuf::from(boundary::ARCHIVE));
    let made = Made::new()?;
    let sides = [made.loaded(&other, "other")?, made.loaded(&other, "again")?, made.loaded(&ours, "ours")?];
    drop(made); // what is loaded stays
    let mut out =
        format!("cover_mask at pel {} and T {}, {} beside {}:\n\n", AT.0, AT.1, other.display(), ours.display());
    out += "| field | other | again | again / other, best / median | ours | ours / other, best / median |\n|---|---|---|---|---|---|\n";
    for size in SIZES {
        eprintln!("cover_mask: {}", size.0);
        let field = Field::new(size, AT.0);
        let [other, again, ours] = timed(&field, sides)?;
        out += &format!(
            "| {} | {} | {} | {} | {} | {} |\n",
            field.name,
            shown(other.best),
            shown(again.best),
            ratio(again, other),
            shown(ours.best),
            ratio(ours, other)
        );
    }
    Ok(out)
}

/// All sides write one mask and one grid, which must come out the same.
fn timed(field: &Field, sides: [CoverMask; 3]) -> Result<[Times; 3], String> {
    let mut made = Vec::new();
    for side in sides {
        let mut lent = Lent::new(field);
        if lent.call(field, side) != 0 {
            return Err(format!("cover_mask: {}: refused", field.name));
        }
        made.push(lent);
    }
    if made.iter().any(|lent| lent != &made[0]) {
        return Err(format!("cover_mask: {}: the archives differ", field.name));
    }
    let lent = &RefCell::new(Lent::new(field));
    let [mut a, mut b, mut c] = sides.map(|side| move || used(lent.borrow_mut().call(field, side)));
    Ok(sampled([&mut a, &mut b, &mut c], MORE).map(Times::of))
}

/// What a cover mask writes.
#[derive(PartialEq, Eq)]
struct Lent {
    scratch: Vec<i32>,
    mask: Vec<u8>,
}

impl Lent {
    fn new(field: &Field) -> Self {
        Self { scratch: vec![0; field.shape.grid_size()], mask: vec![0; field.shape.plane_size()] }
    }

    fn call(&mut self, f: &Field, side: CoverMask) -> u32 {
        let Self { scratch, mask } = self;
        // SAFETY: the export of this version, as `Made::loaded` has it; each slice with its own length.
        unsafe {
            side(
                f.shape,
                1,
                f.backward.as_ptr(),
                f.backward.len(),
                f.forward.as_ptr(),
                f.forward.len(),
                COVER,
                SCALE,
                AT.1,
                scratch.as_mut_ptr(),
                scratch.len(),
                mask.as_mut_ptr(),
                mask.len(),
            )
        }
    }
}

/// A folder for the shared objects, gone with this value.
struct Made(PathBuf);

impl Drop for Made {
    fn drop(&mut self) {
        let _ = fs::remove_dir_all(&self.0);
    }
}

impl Made {
    fn new() -> Result<Self, String> {
        let folder = std::env::temp_dir().join(format!("yoltzimur-beside-{}", id()));
        fs::create_dir(&folder).map_err(|problem| format!("{}: {problem}", folder.display()))?;
        Ok(Self(folder))
    }

    /// An archive as a shared object, whole, its calls bound to each other.
    fn object(&self, archive: &Path, name: &str) -> Result<PathBuf, String> {
        let object = self.0.join(format!("{name}.so"));
        let mut cc = Command::new("cc");
        cc.args(["-shared", "-Wl,-Bsymbolic", "-Wl,--whole-archive"]).arg(archive);
        cc.arg("-Wl,--no-whole-archive").arg("-o").arg(&object);
        let said = cc.output().map_err(|problem| format!("cc: {problem}"))?;
        if said.status.success() {
            return Ok(object);
        }
        let text = String::from_utf8_lossy(&said.stderr);
        Err(format!("cc makes no shared object of {}: {text}", archive.display()))
    }

    /// `unit_cover_mask` of an archive of this major and minor.
    fn loaded(&self, archive: &Path, name: &str) -> Result<CoverMask, String> {
        of_this_version(archive)?;
        let object = self.object(archive, name)?;
        let file = CString::new(object.as_os_str().as_bytes()).map_err(|problem| problem.to_string())?;
        // SAFETY: a file that was just made of an archive of this version, whose code runs nothing when it is loaded, and stays loaded.
        let at = unsafe {
            let library = dlopen(file.as_ptr(), NOW);
            if library.is_null() { library } else { dlsym(library, c"unit_cover_mask".as_ptr()) }
        };
        if at.is_null() {
            return Err(format!(
                "{}: as a shared object it can't be loaded, or has no unit_cover_mask",
                archive.display()
            ));
        }
        // SAFETY: the export's type in every archive of this version.
        Ok(unsafe { std::mem::transmute::<*mut c_void, CoverMask>(at) })
    }
}
