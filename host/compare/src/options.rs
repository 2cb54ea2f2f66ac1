//! The words of the command line.

use std::ffi::OsString;

pub const HELP: &str = "\
compare [--cases N] [--seed N] [--only CALL] [--small] [--exact] [--plant] [--overrun WHAT] [--without-session]

Compares the archive with the unchanged Rust and with the model: boundaries first, then drawn inputs. Ends with status 1 at the first
difference, which is shown with the smallest input that was found to show it.

--cases N          so many drawn inputs for each call, and a fortieth of that in lists for the session; without it about 73 million cases in all
--seed N           other drawn inputs
--only CALL        one call alone, or 'session' for those of a session in lists
--small            leave out large grids, cells that wrap, fields for every step, long lists and powf
--exact            lend buffers with nothing around them, for a memory checker
--plant            put a difference into each part of each answer in turn, for each comparison to find alone, and say which were found;
                   status 1 if one was not
--overrun WHAT     lend one byte less than is said, which a memory checker must find: WHAT is 'read' or 'write', or 'first' or 'second'
                   for a payload of a pool
--without-session  leave out the calls of a session";

/// What `--only` can name, in the order of the tally's rows.
pub const CALLS: [&str; 13] = [
    "vector_data",
    "shape_of",
    "sizes",
    "update",
    "avg_luma",
    "pack",
    "quality_map",
    "quality",
    "cover_mask",
    "sad_mask",
    "kept_class",
    "pool",
    "session",
];

/// What is beyond memory: something read, something written, or the end of either payload of a pool.
#[derive(Clone, Copy)]
pub enum Overrun {
    Read,
    Write,
    First,
    Second,
}

#[derive(Default)]
pub struct Options {
    pub help: bool,
    pub cases: Option<u64>,
    pub seed: u64,
    pub only: Option<String>,
    pub small: bool,
    pub exact: bool,
    pub plant: bool,
    pub overrun: Option<Overrun>,
    pub without_session: bool,
}

impl Options {
    pub fn read(words: impl Iterator<Item = OsString>) -> Result<Self, String> {
        let mut options = Self { seed: 1, ..Self::default() };
        let mut words = words.map(text).collect::<Result<Vec<String>, String>>()?.into_iter();
        while let Some(word) = words.next() {
            match word.as_str() {
                "--help" | "-h" => options.help = true,
                "--cases" => options.cases = Some(number(&word, words.next())?),
                "--seed" => options.seed = number(&word, words.next())?,
                "--only" => options.only = Some(call(words.next())?),
                "--small" => options.small = true,
                "--exact" => options.exact = true,
                "--plant" => options.plant = true,
                "--overrun" => options.overrun = Some(overrun(words.next())?),
                "--without-session" => options.without_session = true,
                _ => return Err(format!("unknown word '{word}'")),
            }
        }
        Ok(options)
    }

    /// A call is to be compared.
    #[cfg(ready)]
    pub fn wants(&self, call: &str) -> bool {
        self.only.as_ref().is_none_or(|only| only == call)
    }
}

fn text(word: OsString) -> Result<String, String> {
    word.into_string().map_err(|word| format!("{word:?} is not UTF-8 text, which every word is"))
}

fn number(word: &str, value: Option<String>) -> Result<u64, String> {
    let value = value.ok_or_else(|| format!("{word} wants a number"))?;
    value.parse().map_err(|_| format!("{word} wants a number, not '{value}'"))
}

fn call(word: Option<String>) -> Result<String, String> {
    match word {
        Some(word) if CALLS.contains(&word.as_str()) => Ok(word),
        Some(word) => Err(format!("--only wants one of {}, not '{word}'", CALLS.join(", "))),
        None => Err(format!("--only wants one of {}", CALLS.join(", "))),
    }
}

fn overrun(word: Option<String>) -> Result<Overrun, String> {
    match word.as_deref() {
        Some("read") => Ok(Overrun::Read),
        Some("write") => Ok(Overrun::Write),
        Some("first") => Ok(Overrun::First),
        Some("second") => Ok(Overrun::Second),
        _ => Err(String::from("--overrun wants 'read', 'write', 'first' or 'second'")),
    }
}
