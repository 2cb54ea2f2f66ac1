//! Reading files: whole, up to a size, with the file's name in every message.

use crate::fault::Fault;
use std::fs::File;
use std::io::{self, Read};
use std::path::{Path, PathBuf};
use yoltzimur::LumaTable;
use yoltzimur::constants::TABLE_LEN;

/// The most bytes that are read of a file. A payload of the largest grid has 16,777,288.
const MOST: u64 = 64 << 20;

/// All bytes of a file.
pub fn read(path: &Path) -> Result<Vec<u8>, String> {
    let name = path.display().to_string();
    File::open(path).map_err(|problem| format!("{name}: {problem}")).and_then(|file| all(file, &name))
}

/// A script's name in messages and its bytes. `-` is standard input here alone: two files of one run could not share it.
pub fn script(path: &Path) -> Result<(String, Vec<u8>), String> {
    if path.as_os_str() == "-" {
        let name = String::from("standard input");
        return all(io::stdin().lock(), &name).map(|bytes| (name, bytes));
    }
    Ok((path.display().to_string(), read(path)?))
}

/// All that can be read, up to the most.
fn all(from: impl Read, name: &str) -> Result<Vec<u8>, String> {
    let mut bytes = Vec::new();
    from.take(MOST + 1).read_to_end(&mut bytes).map_err(|problem| format!("{name}: {problem}"))?;
    if bytes.len() as u64 > MOST {
        return Err(format!("{name}: longer than {MOST} bytes, the most that is read"));
    }
    Ok(bytes)
}

/// A luma table: 511 bytes, one for each sum of two lumas.
pub fn table(path: &Path) -> Result<LumaTable, Fault> {
    let bytes = read(path).map_err(Fault::input)?;
    let length = bytes.len();
    bytes.try_into().map_err(|_| {
        Fault::input(format!("{}: the luma table has {length} bytes, and {TABLE_LEN} are expected", path.display()))
    })
}

/// The payloads that a script takes, each file read once.
#[derive(Default)]
pub struct Payloads {
    files: Vec<Payload>,
    /// Those of the arguments, in their order, and how many of them were taken.
    given: Vec<usize>,
    taken: usize,
}

pub struct Payload {
    pub path: PathBuf,
    pub bytes: Vec<u8>,
}

impl Payloads {
    /// Adds a payload to those that a `take` or a `pool` without names takes in turn.
    pub fn give(&mut self, path: &Path) -> Result<(), String> {
        let place = self.named(path)?;
        self.given.push(place);
        Ok(())
    }

    /// The same of bytes at hand.
    pub fn give_bytes(&mut self, name: &str, bytes: Vec<u8>) {
        self.given.push(self.files.len());
        self.name_bytes(name, bytes);
    }

    /// Bytes at hand in the place of a file of that name.
    pub fn name_bytes(&mut self, name: &str, bytes: Vec<u8>) {
        self.files.push(Payload { path: name.into(), bytes });
    }

    /// The place of a named file.
    pub fn named(&mut self, path: &Path) -> Result<usize, String> {
        if let Some(place) = self.files.iter().position(|file| file.path == path) {
            return Ok(place);
        }
        self.files.push(Payload { path: path.into(), bytes: read(path)? });
        Ok(self.files.len() - 1)
    }

    /// The place of the next payload of the arguments.
    pub fn next(&mut self) -> Result<usize, String> {
        let [place] = self.next_ones().ok_or_else(|| {
            format!("take without a name, and the {} of the arguments are taken; a file's name is expected", self.taken)
        })?;
        Ok(place)
    }

    /// The places of the next two.
    pub fn next_two(&mut self) -> Result<[usize; 2], String> {
        self.next_ones().ok_or_else(|| {
            let left = self.given.len() - self.taken;
            format!("pool without names, and {left} left of the arguments; the names of two files are expected")
        })
    }

    /// So many, where so many are left.
    fn next_ones<const N: usize>(&mut self) -> Option<[usize; N]> {
        let places = *self.given.get(self.taken..)?.first_chunk()?;
        self.taken += N;
        Some(places)
    }

    /// How many the arguments gave.
    pub fn given(&self) -> usize {
        self.given.len()
    }

    pub fn get(&self, place: usize) -> Option<&Payload> {
        self.files.get(place)
    }
}
