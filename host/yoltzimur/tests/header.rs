//! `include/unit.h` has the same constants, numbers and version as this crate, and the archive has that version too.

use std::collections::{BTreeMap, BTreeSet};
use std::fs;
use std::path::Path;

use yoltzimur::{
    BlockVector, Error, FieldShape, Gesture, SceneLimits, Session, Side, VERSION, constants as c, raw, sizes, version,
};

fn header() -> String {
    let path = Path::new(env!("CARGO_MANIFEST_DIR")).join("../../include/unit.h");
    fs::read_to_string(path).unwrap()
}

/// What the header defines in a part of it, by name: `UNIT_NAME = VALUE` or `#define UNIT_NAME VALUE`.
fn defined(part: &str) -> BTreeMap<&str, f64> {
    let lines = part.lines().map(|line| line.trim().trim_start_matches("#define "));
    let named = lines.filter_map(|line| line.strip_prefix("UNIT_")?.split_once([' ', '=']));
    let valued = named.filter_map(|(name, rest)| {
        let value = rest.trim_start_matches([' ', '=']).split([' ', ',']).next()?;
        Some((name, value.parse().ok()?))
    });
    valued.collect()
}

/// The part of the header between two titles.
fn between<'a>(header: &'a str, title: &str, next: &str) -> &'a str {
    let (_, rest) = header.split_once(&format!("/* ---- {title} ")).unwrap();
    rest.split_once(&format!("/* ---- {next} ")).unwrap().0
}

/// Constants of this crate with their names.
macro_rules! named {
    ($($name:ident)*) => { BTreeMap::from([$((stringify!($name), c::$name as f64)),*]) };
}

#[test]
fn every_constant_of_the_header_is_here() {
    let ours = named! {
        RECORD_LEN RECORD_START PAYLOAD_START PAYLOAD_HEAD PAYLOAD_BACKWARD ENTRY_SIZE TABLE_LEN SLOT_SIZE SLOTS_MOST
        BLOCK_MOST PEL_MOST PICTURE_MOST GRID_MOST TIME_LEAST TIME_MOST COVER_MOST SAD_MOST SAD_SCALE_MOST
        FLAG_BACKWARD FLAG_FORWARD TIME_WHOLE COVER_WHOLE PLANE_ZERO MAP_BELOW_ZERO
    };
    assert_eq!(defined(between(&header(), "Constants", "Shapes and sizes")), ours);
}

/// Every error that has a number of the library.
const ERRORS: [Error; 12] = [
    Error::Record,
    Error::Shape,
    Error::Buffer,
    Error::Head,
    Error::BackwardHalf,
    Error::ForwardHalf,
    Error::Range,
    Error::Place,
    Error::NoPast,
    Error::NoFuture,
    Error::Steps,
    Error::Counts,
];

#[test]
fn every_number_of_the_header_is_an_error() {
    let header = header();
    let numbers = defined(between(&header, "Numbers", "Constants")).into_values().map(|number| number as u32);
    let ours = ERRORS.iter().filter_map(|error| error.number()).chain([0]);
    assert_eq!(numbers.collect::<BTreeSet<_>>(), ours.collect());
    // Of 8 the text in C also speaks of the side, which in Rust is never wrong.
    for error in ERRORS.iter().filter(|error| **error != Error::Place) {
        assert!(header.contains(&format!("return \"{error}\";")), "{error}");
    }
}

#[test]
fn header_crate_and_archive_have_one_version() {
    let header = header();
    let parts = defined(between(&header, "Version", "Numbers"));
    let [major, minor, patch] = ["MAJOR", "MINOR", "PATCH"].map(|part| parts[&format!("VERSION_{part}")[..]] as u32);
    assert_eq!([VERSION, version()], [65_536 * major + 256 * minor + patch; 2]);
    // The guard's name has major and minor, and the guard refers to that name.
    let guard = format!("unit_abi_{major}_{minor}");
    assert!(header.contains(&format!("uint32_t {guard}(void);")), "{guard} is not declared");
    assert!(header.contains(&format!("(*const unit_link_guard)(void) = {guard};")), "{guard} is not referred to");
}

/// The calls that the header declares, each by a line that begins with a type, the name and a bracket; but for the guard's.
fn declared(header: &str) -> BTreeSet<&str> {
    let heads = header.lines().filter_map(|line| line.split_once('(')?.0.split_once(' '));
    let names = heads.map(|(_, name)| name).filter(|name| name.starts_with("unit_") && !name.contains(' '));
    names.filter(|name| !name.starts_with("unit_abi_")).collect()
}

/// Calls of this crate, with the names of their exports.
macro_rules! calls {
    ($($name:ident)*) => {
        BTreeSet::from([$({
            let _ = raw::$name;
            concat!("unit_", stringify!($name))
        }),*])
    };
}

#[test]
fn every_call_of_the_header_is_here() {
    let ours = calls! {
        version vector_data shape_of sizes update avg_luma pack quality_map quality cover_mask sad_mask
        open take pool put undo redo retime kept_class
    };
    assert_eq!(declared(&header()), ours);
}

/// A shape at its limits.
const MOST: FieldShape = FieldShape {
    flags: 0,
    block_w: c::BLOCK_MOST,
    block_h: c::BLOCK_MOST,
    pel: c::PEL_MOST,
    width: c::PICTURE_MOST,
    height: c::PICTURE_MOST,
    overlap_x: 0,
    overlap_y: 0,
    grid_w: c::GRID_MOST,
    grid_h: c::GRID_MOST,
    selector: 0,
};

#[test]
fn a_shape_is_accepted_to_its_limits_and_not_beyond() {
    assert!(sizes(MOST).is_ok());
    for beyond in [
        FieldShape { block_w: c::BLOCK_MOST + 1, ..MOST },
        FieldShape { block_h: c::BLOCK_MOST + 1, ..MOST },
        FieldShape { pel: c::PEL_MOST + 1, ..MOST },
        FieldShape { width: c::PICTURE_MOST + 1, ..MOST },
        FieldShape { height: c::PICTURE_MOST + 1, ..MOST },
        FieldShape { grid_w: c::GRID_MOST + 1, ..MOST },
        FieldShape { grid_h: c::GRID_MOST + 1, ..MOST },
    ] {
        assert_eq!(sizes(beyond), Err(Error::Shape), "{beyond:?}");
    }
}

#[test]
fn numbers_are_accepted_to_their_limits_and_not_beyond() {
    let shape = FieldShape { grid_w: 1, grid_h: 1, ..MOST };
    let mut s = Session::open(shape, Side::Backward, SceneLimits::default(), 0, &[0; c::TABLE_LEN], 1).unwrap();
    for time in [c::TIME_LEAST, c::TIME_MOST] {
        assert_eq!((s.retime(time), s.retime(time + time.signum())), (Ok(()), Err(Error::Range)));
    }
    for (sad, answer) in [(c::SAD_MOST, Ok(())), (c::SAD_MOST + 1, Err(Error::Range))] {
        assert_eq!(s.put(Side::Backward, 0, BlockVector { sad, ..BlockVector::default() }, Gesture::from(0)), answer);
    }
    let mut mask = vec![0; s.mask_len()];
    assert_eq!(s.cover_mask(c::COVER_MOST, c::SAD_SCALE_MOST, &mut mask), Ok(()));
    assert_eq!(s.cover_mask(c::COVER_MOST + 1, c::SAD_SCALE_MOST, &mut mask), Err(Error::Range));
    assert_eq!(s.sad_mask(c::COVER_MOST, c::SAD_SCALE_MOST + 1e-9, &mut mask), Err(Error::Range));
}
