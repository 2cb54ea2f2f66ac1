//! What `record` writes: it is what the repository holds, keeps to the paper's limits and to the room of the program `replay`, and meets its borders.
#![cfg(rust_found)]

use std::collections::HashSet;
use std::fs;
use std::path::Path;
use std::sync::LazyLock;

use model::bytes::i32_at;
use model::shape::Shape;
use oracle::answers;
use oracle::kinds::KINDS;

const REPLAY: &str = concat!(env!("CARGO_MANIFEST_DIR"), "/../../crates/replay");

/// A file of a call.
struct Recorded {
    name: &'static str,
    ending: &'static str,
    bytes: Vec<u8>,
}

static RECORDED: LazyLock<Vec<Recorded>> = LazyLock::new(|| {
    let mut out = Vec::new();
    for kind in KINDS {
        for (ending, cases) in kind.recorded() {
            out.push(Recorded { name: kind.name, ending, bytes: answers::file(&cases) });
        }
    }
    out
});

impl Recorded {
    /// The numbers of each case.
    fn numbers(&self) -> Vec<Vec<i32>> {
        let number = |at: usize| i32_at(&self.bytes, at).expect("a file that ends with its last case");
        let (mut out, mut at) = (Vec::new(), 4);
        while at < self.bytes.len() {
            let (size, length) = (number(at) as usize, number(at + 4) as usize);
            out.push((0..length / 4).map(|i| number(at + 8 + 4 * i)).collect());
            at += 4 + size;
        }
        assert_eq!(out.len() as i32, number(0), "{}.{}", self.name, self.ending);
        out
    }

    /// The shape of each case, and the numbers behind shape, n and slopes.
    fn shapes(&self) -> impl Iterator<Item = (Shape, Vec<i32>)> {
        let shape = |numbers: &[i32]| Shape::from_fields(*numbers.first_chunk().expect("a shape's 11 fields"));
        self.numbers().into_iter().map(move |numbers| (shape(&numbers), numbers[14..].to_vec()))
    }
}

#[test]
fn the_repository_holds_what_is_recorded() {
    let folder = Path::new(REPLAY).join("data");
    for file in RECORDED.iter() {
        let path = folder.join(format!("{}.{}", file.name, file.ending));
        let held = fs::read(&path).unwrap_or_else(|problem| panic!("{}: {problem}", path.display()));
        assert!(held == file.bytes, "{} is not what `record` writes", path.display());
    }
    assert_eq!(fs::read_dir(&folder).map(Iterator::count).ok(), Some(RECORDED.len()), "files in {}", folder.display());
}

/// Every line of `replay`: no difference among a call's cases, and each damaged copy found. The scatter's files are run twice, the second time
/// through the plain scatter.
#[test]
fn replay_must_print_the_counts() {
    let count = |file: &Recorded| file.numbers().len();
    let lines = RECORDED.chunks(2).flat_map(|files| {
        let (cases, damaged) = (count(&files[0]), count(&files[1]));
        let line = |name: &str| format!("{name} {cases} 0 {damaged} {damaged}");
        let again = (files[0].name == "scatter").then(|| line("plain"));
        std::iter::once(line(files[0].name)).chain(again)
    });
    let path = Path::new(REPLAY).join("stdout");
    let text = fs::read_to_string(&path).unwrap_or_else(|problem| panic!("{}: {problem}", path.display()));
    let printed = text.lines().skip(1).map(|line| line.split_whitespace().collect::<Vec<_>>().join(" "));
    assert_eq!(printed.collect::<Vec<_>>(), lines.collect::<Vec<_>>(), "{}", path.display());
}

#[test]
fn every_shape_is_within_the_limits_and_every_case_has_room() {
    for file in RECORDED.iter() {
        let name = file.name;
        // crates/replay/src: the file, a set's bytes, a grid's cells
        assert!(file.bytes.len() <= 327_680, "{name}: {} bytes", file.bytes.len());
        if name != "vector_data" {
            assert!(file.shapes().all(|(shape, _)| shape.accepted()), "{name}");
            assert!(file.shapes().all(|(s, _)| s.set_size() <= 530_000 && s.grid_size() <= 68_000), "{name}");
        }
    }
}

/// Time, pel, and the steps of both axes in each case of the scatter.
fn scattered() -> HashSet<[i32; 4]> {
    let scatter = RECORDED.iter().find(|file| file.name == "scatter").expect("a file of the scatter");
    scatter.shapes().map(|(shape, more)| [more[0], shape.pel, shape.x().step(), shape.y().step()]).collect()
}

#[test]
fn each_axis_meets_every_step_at_every_time_and_pel() {
    let met = scattered();
    for time in [0, 128, 256, -256, 257, -257, 65535, -65535] {
        for pel in [1, 2, 3, 4, 64] {
            for step in [1, 3, 8, 128, 129, 256] {
                let one = [time, pel, step];
                assert!(met.iter().any(|&[t, p, x, _]| [t, p, x] == one), "time, pel, step x {one:?}");
                assert!(met.iter().any(|&[t, p, _, y]| [t, p, y] == one), "time, pel, step y {one:?}");
            }
        }
    }
}

#[test]
fn every_mixture_about_the_fast_row_is_met() {
    let met = scattered();
    for time in [256, -256, 257, -257] {
        for pel in [2, 3] {
            for steps in [[128, 128], [128, 129], [129, 128], [129, 129]] {
                assert!(met.contains(&[time, pel, steps[0], steps[1]]), "time {time}, pel {pel}, steps {steps:?}");
            }
        }
    }
}
