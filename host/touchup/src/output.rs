//! Writing files so that none is ever half there: to a name beside it first, then renamed.

use std::fmt::Display;
use std::fs::{self, File};
use std::io::Write;
use std::path::{Path, PathBuf};
use std::process;

/// The name under which a file is written before it is whole.
fn beside(path: &Path) -> PathBuf {
    let name = path.file_name().unwrap_or_default().to_string_lossy();
    path.with_file_name(format!(".{name}.{}.part", process::id()))
}

fn unwritten(path: &Path, problem: impl Display) -> String {
    format!("{}: cannot be written: {problem}", path.display())
}

/// Writes a whole file or none.
pub fn write(path: &Path, bytes: &[u8]) -> Result<(), String> {
    let part = beside(path);
    // A file of that name that is there already is another's, and stays.
    let mut file = File::create_new(&part).map_err(|problem| unwritten(path, problem))?;
    file.write_all(bytes).and_then(|()| fs::rename(&part, path)).map_err(|problem| {
        fs::remove_file(&part).ok();
        unwritten(path, problem)
    })
}

/// Sees whether a file could be written, and leaves nothing.
fn probe(path: &Path) -> Result<(), String> {
    if path.is_dir() {
        return Err(unwritten(path, "it is a folder"));
    }
    let part = beside(path);
    File::create_new(&part).and_then(|_| fs::remove_file(&part)).map_err(|problem| unwritten(path, problem))
}

/// The folders that were made, the deepest first.
#[derive(Default)]
pub struct Made(Vec<PathBuf>);

impl Made {
    /// Those of a path that are not there.
    fn missing(folder: &Path) -> Made {
        let absent = folder.ancestors().take_while(|above| !above.as_os_str().is_empty() && !above.exists());
        Made(absent.map(Path::to_path_buf).collect())
    }

    /// Removes them; one that something has come into stays.
    pub fn remove(&self) {
        self.0.iter().for_each(|folder| drop(fs::remove_dir(folder)));
    }
}

/// Makes a folder, with those above it, and sees whether each file could be written; where one could not, every folder made goes again.
pub fn prepare<'a>(folder: &Path, files: impl IntoIterator<Item = &'a PathBuf>) -> Result<Made, String> {
    let made = Made::missing(folder);
    fs::create_dir_all(folder)
        .map_err(|problem| format!("{}: cannot be made: {problem}", folder.display()))
        .and_then(|()| files.into_iter().try_for_each(|file| probe(file)))
        .inspect_err(|_| made.remove())?;
    Ok(made)
}

/// Writes files into a folder where none of them is, all or none.
pub fn write_new(folder: &Path, files: &[(PathBuf, Vec<u8>)]) -> Result<(), String> {
    if let Some((path, _)) = files.iter().find(|(path, _)| path.symlink_metadata().is_ok()) {
        return Err(format!(
            "{}: is there already, and nothing is overwritten; another folder is expected",
            path.display()
        ));
    }
    let made = prepare(folder, files.iter().map(|(path, _)| path))?;
    for (written, (path, bytes)) in files.iter().enumerate() {
        write(path, bytes).inspect_err(|_| {
            files[..written].iter().for_each(|(path, _)| drop(fs::remove_file(path)));
            made.remove();
        })?;
    }
    Ok(())
}

#[cfg(test)]
mod tests {
    use super::*;

    #[test]
    fn a_part_of_another_run_stays() {
        let folder = std::env::temp_dir().join(format!("touchup-part-{}", process::id()));
        let (path, made) = (folder.join("a.png"), Made::missing(&folder));
        fs::create_dir(&folder).unwrap();
        fs::write(beside(&path), "another's").unwrap();
        assert!(write(&path, b"mine").unwrap_err().contains("cannot be written"));
        assert_eq!(fs::read(beside(&path)).unwrap(), b"another's");
        fs::remove_file(beside(&path)).unwrap();
        write(&path, b"mine").unwrap();
        assert_eq!(fs::read(&path).unwrap(), b"mine");
        fs::remove_file(&path).unwrap();
        made.remove();
        assert!(!folder.exists());
    }
}
