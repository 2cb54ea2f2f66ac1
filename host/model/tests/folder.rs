//! A folder's files are all written or left as they were.

use std::fs;
use std::path::{Path, PathBuf};

use model::folder::{File, write};

/// A folder of this test's own, not there yet.
fn absent(name: &str) -> PathBuf {
    let folder = std::env::temp_dir().join(format!("folder-{name}-{}", std::process::id()));
    let _ = fs::remove_dir_all(&folder);
    folder
}

fn file(name: &str, text: &str) -> File {
    File { name: String::from(name), bytes: text.as_bytes().to_vec() }
}

/// The names that stand in a folder.
fn names(folder: &Path) -> Vec<String> {
    let entries = fs::read_dir(folder).unwrap();
    let mut out: Vec<String> = entries.map(|entry| entry.unwrap().file_name().into_string().unwrap()).collect();
    out.sort();
    out
}

#[test]
fn files_of_one_stem_keep_apart_and_older_ones_are_replaced() {
    let folder = absent("whole");
    write(&folder, &[file("deep/a.one", "old")]).unwrap();
    write(&folder, &[file("deep/a.one", "1"), file("deep/a.two", "22"), file("b", "")]).unwrap();
    assert_eq!((names(&folder), names(&folder.join("deep"))), (list(&["b", "deep"]), list(&["a.one", "a.two"])));
    assert_eq!(fs::read_to_string(folder.join("deep/a.one")).unwrap(), "1");
    assert_eq!(fs::read_to_string(folder.join("deep/a.two")).unwrap(), "22");
    fs::remove_dir_all(&folder).unwrap();
}

#[test]
fn one_that_can_not_be_written_leaves_all_as_they_were() {
    let folder = absent("cut");
    write(&folder, &[file("a", "old"), file("file", "x")]).unwrap();
    let problem = write(&folder, &[file("a", "new"), file("file/b", "new")]).unwrap_err();
    assert!(problem.starts_with(&folder.join("file").display().to_string()), "{problem}");
    assert_eq!(fs::read_to_string(folder.join("a")).unwrap(), "old");
    assert_eq!(names(&folder), list(&["a", "file"]));
    fs::remove_dir_all(&folder).unwrap();
}

#[test]
fn a_folder_in_a_files_place_leaves_all_as_they_were() {
    let folder = absent("taken");
    write(&folder, &[file("a", "old"), file("b/c", "x")]).unwrap();
    let problem = write(&folder, &[file("a", "new"), file("b", "new")]).unwrap_err();
    assert!(problem.starts_with(&folder.join("b").display().to_string()), "{problem}");
    assert_eq!(fs::read_to_string(folder.join("a")).unwrap(), "old");
    assert_eq!((names(&folder), names(&folder.join("b"))), (list(&["a", "b"]), list(&["c"])));
    fs::remove_dir_all(&folder).unwrap();
}

fn list(names: &[&str]) -> Vec<String> {
    names.iter().map(|&name| String::from(name)).collect()
}
