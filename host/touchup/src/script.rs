//! A script: one call a line, all lines read and judged before the first call is made.

use crate::input::Payloads;
use crate::words::{fraction, side, split, whole};
use std::path::{Path, PathBuf};
use yoltzimur::{BlockVector, Gesture, Side};

/// The words that a line may begin with, as a message lists them.
const CALLS: &str = "take, pool, put, undo, redo, retime, mask, map, vectors, averages, show or class";

/// One line that has a call.
#[derive(Debug)]
pub struct Line {
    pub number: usize,
    /// The line without blanks at its ends.
    pub text: String,
    pub call: Call,
}

/// A call of the session, or a look at what it left.
#[derive(Debug, PartialEq)]
pub enum Call {
    /// The place of the payload among those read.
    Take(usize),
    /// The places of the first and of the second.
    Pool([usize; 2]),
    /// Where no gesture is named, it is one of its own.
    Put(Side, u32, Fields, Option<Gesture>),
    Undo,
    Redo,
    Retime(i32),
    CoverMask(i32, PathBuf),
    SadMask(f64, PathBuf),
    Map(PathBuf),
    /// Of the shown side where none is named.
    Vectors(Option<Side>, PathBuf),
    Averages(PathBuf),
    Show(Side, u32),
    Class,
}

impl Call {
    /// The picture that the call writes.
    pub fn picture(&self) -> Option<&Path> {
        match self {
            Call::CoverMask(_, name) | Call::SadMask(_, name) | Call::Map(name) => Some(name),
            Call::Vectors(_, name) | Call::Averages(name) => Some(name),
            _ => None,
        }
    }
}

/// The fields that a put names; the others stay.
#[derive(Debug, Default, PartialEq)]
pub struct Fields {
    pub x: Option<i16>,
    pub y: Option<i16>,
    pub sad: Option<i32>,
    pub luma: Option<u8>,
}

impl Fields {
    /// An entry with these fields in place of its own.
    pub fn over(&self, entry: BlockVector) -> BlockVector {
        BlockVector {
            x: self.x.unwrap_or(entry.x),
            y: self.y.unwrap_or(entry.y),
            sad: self.sad.unwrap_or(entry.sad),
            luma: self.luma.unwrap_or(entry.luma),
        }
    }
}

/// The calls of a script, or each line that is wrong. Payloads are read from `folder` on.
pub fn read(text: &str, folder: &Path, payloads: &mut Payloads) -> Result<Vec<Line>, Vec<(usize, String)>> {
    let (mut lines, mut wrong) = (Vec::new(), Vec::new());
    for (number, text) in (1..).zip(text.lines()) {
        match split(text).and_then(|words| call(&words, folder, payloads)) {
            Ok(Some(call)) => lines.push(Line { number, text: text.trim().into(), call }),
            Ok(None) => {}
            Err(problem) => wrong.push((number, problem)),
        }
    }
    if wrong.is_empty() { Ok(lines) } else { Err(wrong) }
}

/// The call of a line's words; none where there are no words.
fn call(words: &[&str], folder: &Path, payloads: &mut Payloads) -> Result<Option<Call>, String> {
    let Some((&name, rest)) = words.split_first() else {
        return Ok(None);
    };
    Ok(Some(match (name, rest) {
        ("take", []) => Call::Take(payloads.next()?),
        ("take", [file]) => Call::Take(payloads.named(&folder.join(file))?),
        ("pool", []) => Call::Pool(payloads.next_two()?),
        ("pool", [first, second]) => {
            Call::Pool([payloads.named(&folder.join(first))?, payloads.named(&folder.join(second))?])
        }
        ("put", [side_word, block_word, rest @ ..]) => {
            let (fields, gesture) = given(rest)?;
            Call::Put(side(side_word)?, block(block_word)?, fields, gesture)
        }
        ("undo", []) => Call::Undo,
        ("redo", []) => Call::Redo,
        ("retime", [time]) => Call::Retime(whole("the time", time, i32::MIN, i32::MAX)?),
        ("mask", ["cover", cover, file]) => {
            Call::CoverMask(whole("the cover", cover, i32::MIN, i32::MAX)?, picture(file)?)
        }
        ("mask", ["sad", scale, file]) => Call::SadMask(fraction("the SAD scale", scale)?, picture(file)?),
        ("map", [file]) => Call::Map(picture(file)?),
        ("vectors", [file]) => Call::Vectors(None, picture(file)?),
        ("vectors", [side_word, file]) => Call::Vectors(Some(side(side_word)?), picture(file)?),
        ("averages", [file]) => Call::Averages(picture(file)?),
        ("show", [side_word, block_word]) => Call::Show(side(side_word)?, block(block_word)?),
        ("class", []) => Call::Class,
        _ => return Err(misshapen(name)),
    }))
}

/// What is expected of a line that begins with a word and does not go on as it should.
fn misshapen(name: &str) -> String {
    let form = match name {
        "take" => "take FILE, or take alone for the next --payload",
        "pool" => "pool FIRST SECOND, or pool alone for the next two --payload",
        "put" => "put SIDE BLOCK x=X y=Y sad=SAD luma=LUMA gesture=NUMBER, any of the five left out",
        "undo" | "redo" | "class" => "nothing after it",
        "retime" => "retime TIME",
        "mask" => "mask cover COVER FILE.png or mask sad SCALE FILE.png",
        "map" => "map FILE.png",
        "vectors" => "vectors FILE.png or vectors SIDE FILE.png",
        "averages" => "averages FILE.png",
        "show" => "show SIDE BLOCK",
        _ => return format!("unknown word '{name}'; {CALLS} is expected"),
    };
    format!("{name} has too few words, too many or a wrong one; expected is: {form}")
}

fn block(word: &str) -> Result<u32, String> {
    whole("the block", word, u32::MIN, u32::MAX)
}

/// The fields of a put and its gesture: each at most once.
fn given(words: &[&str]) -> Result<(Fields, Option<Gesture>), String> {
    let (mut fields, mut gesture) = (Fields::default(), None);
    for word in words {
        let fresh = match word.split_once('=') {
            Some(("x", value)) => fields.x.replace(whole("x", value, i16::MIN, i16::MAX)?).is_none(),
            Some(("y", value)) => fields.y.replace(whole("y", value, i16::MIN, i16::MAX)?).is_none(),
            Some(("sad", value)) => fields.sad.replace(whole("sad", value, i32::MIN, i32::MAX)?).is_none(),
            Some(("luma", value)) => fields.luma.replace(whole("luma", value, u8::MIN, u8::MAX)?).is_none(),
            Some(("gesture", value)) => gesture.replace(whole("gesture", value, u32::MIN, u32::MAX)?).is_none(),
            _ => {
                let expected = "x=X, y=Y, sad=SAD, luma=LUMA or gesture=NUMBER is expected";
                return Err(format!("unknown word '{word}'; {expected}"));
            }
        };
        if !fresh {
            return Err(format!("'{word}' names its field a second time; once is expected"));
        }
    }
    Ok((fields, gesture.map(Gesture::from)))
}

/// The name of a picture. It must say that it is one, so that a slip overwrites no other file.
fn picture(word: &str) -> Result<PathBuf, String> {
    let path = PathBuf::from(word);
    if path.extension().is_some_and(|end| end.eq_ignore_ascii_case("png")) {
        return Ok(path);
    }
    Err(format!("the picture's name is '{word}', and a name that ends in .png is expected"))
}
