//! Differences put into the archive's answers, to show that each comparison finds them.

use std::cell::Cell;
use std::fmt::{self, Display, Formatter};

use model::session::Counts;

use crate::guarded::{Element, Guarded, Place};

/// The comparisons. A difference that one finds ends with its name in brackets.
pub const MODEL: &str = "the model";
pub const RUST: &str = "the Rust";
pub const MACHINE: &str = "the machine";
pub const LAYOUT: &str = "the machine's layout";
pub const AGAIN: &str = "undone and done again";

/// In which call's answer and in which part of it a difference is planted, and which comparison must find it.
#[derive(Clone, Copy)]
struct Planted {
    judge: &'static str,
    call: &'static str,
    part: Part,
}

/// A part of an answer: what the call returns, or a place of a buffer.
#[derive(Clone, Copy, PartialEq, Eq, Debug)]
pub enum Part {
    Number,
    Value,
    /// One of several values, by its name.
    Named(&'static str),
    /// One of the counts that a session keeps, by its name.
    Count(&'static str),
    Buffer(&'static str, Place),
    /// A byte of the gesture that a put wrote into its slot.
    Gesture(usize),
    /// All of it, as a wrong program answers, by its name.
    Program(&'static str),
}

/// The places of a buffer.
const PLACES: [Place; 4] = [Place::Before, Place::First, Place::Last, Place::Behind];

/// What a call returns, and each place of each buffer that it is lent.
pub fn parts(returned: &[Part], buffers: impl IntoIterator<Item = &'static str>) -> Vec<Part> {
    let places = buffers.into_iter().flat_map(|name| PLACES.map(|place| Part::Buffer(name, place)));
    returned.iter().copied().chain(places).collect()
}

thread_local! {
    static PLANTED: Cell<Option<Planted>> = const { Cell::new(None) };
}

/// A difference is planted in this part of this call.
pub fn planted(call: &str, part: Part) -> bool {
    PLANTED.get().is_some_and(|planted| planted.call == call && planted.part == part)
}

/// The wrong program that is planted in place of this call.
pub fn program(call: &str) -> Option<&'static str> {
    match PLANTED.get() {
        Some(Planted { call: of, part: Part::Program(name), .. }) if of == call => Some(name),
        _ => None,
    }
}

/// This comparison is made. Where a difference is planted for another to find, it is left out, so that it can't find it first.
pub fn asks(judge: &str) -> bool {
    PLANTED.get().is_none_or(|planted| planted.judge == judge)
}

/// A number as the archive gave it, or changed.
pub fn number(call: &str, number: u32) -> u32 {
    if planted(call, Part::Number) { number ^ 1 } else { number }
}

/// Each of the kept counts as a part of an answer.
pub fn count_parts() -> [Part; 4] {
    Counts::NAMES.map(Part::Count)
}

/// Each byte of a gesture as a part of an answer.
pub fn gesture_parts() -> [Part; 4] {
    [0, 1, 2, 3].map(Part::Gesture)
}

/// Changes a kept count if that is planted.
pub fn counts(call: &str, kept: &mut Counts) {
    let mut fields = kept.fields();
    for (count, part) in fields.iter_mut().zip(count_parts()) {
        *count ^= u32::from(planted(call, part));
    }
    *kept = Counts::from_fields(fields);
}

/// Changes a buffer if that is planted.
pub fn buffer<T: Element>(call: &str, name: &'static str, buffer: &mut Guarded<T>) {
    for place in PLACES {
        if planted(call, Part::Buffer(name, place)) {
            buffer.plant(place);
        }
    }
}

/// How many differences were planted in a call's answers for a comparison, and how many it found.
struct Row {
    judge: &'static str,
    call: &'static str,
    planted: usize,
    found: usize,
}

#[derive(Default)]
pub struct Found {
    rows: Vec<Row>,
    missed: Vec<String>,
}

impl Found {
    /// Plants each part in turn; `find` compares until a difference shows, and says what it was, if any.
    pub fn try_each(
        &mut self,
        (judge, call): (&'static str, &'static str),
        parts: &[Part],
        mut find: impl FnMut() -> Option<String>,
    ) {
        let mut found = 0;
        for &part in parts {
            PLANTED.set(Some(Planted { judge, call, part }));
            match find() {
                Some(difference) if names(&difference, (judge, call), part) => found += 1,
                other => self.missed.push(format!("{call}: {part:?} planted for {judge}, found {other:?}")),
            }
        }
        PLANTED.set(None);
        self.rows.push(Row { judge, call, planted: parts.len(), found });
    }

    pub fn verdict(&self) -> Result<(), String> {
        if self.rows.is_empty() {
            return Err(String::from("nothing was planted"));
        }
        if self.missed.is_empty() { Ok(()) } else { Err(self.missed.join("\n")) }
    }
}

/// A difference that was found is in the part that was planted, and was found by the comparison that had to.
fn names(difference: &str, (judge, call): (&str, &str), part: Part) -> bool {
    let named = match part {
        Part::Number => difference.contains("number"),
        Part::Value => difference.contains("value"),
        Part::Named(name) => difference.starts_with(&format!("{name} ")),
        Part::Count(name) => difference.contains(&format!("kept {name} ")),
        Part::Buffer(name, _) => difference.contains(&format!("{name}[")),
        Part::Gesture(_) => difference.contains("history["),
        // The model sees each call, the other comparisons what is left behind the list.
        Part::Program(_) => judge != MODEL || difference.contains(&format!("{call}: ")),
    };
    named && difference.ends_with(&format!("({judge})"))
}

impl Display for Found {
    fn fmt(&self, out: &mut Formatter) -> fmt::Result {
        writeln!(out, "{:12} {:22} {:>8} {:>8}", "call", "compared with", "planted", "found")?;
        for Row { judge, call, planted, found } in &self.rows {
            writeln!(out, "{call:12} {judge:22} {planted:8} {found:8}")?;
        }
        for judge in [MODEL, RUST, MACHINE, LAYOUT, AGAIN] {
            self.sum(out, judge, |row| row.judge == judge)?;
            writeln!(out)?;
        }
        self.sum(out, "", |_| true)
    }
}

impl Found {
    /// A line that sums some of the rows.
    fn sum(&self, out: &mut Formatter, judge: &str, of: impl Fn(&Row) -> bool) -> fmt::Result {
        let rows = self.rows.iter().filter(|row| of(row));
        let (planted, found) = rows.fold((0, 0), |sum, row| (sum.0 + row.planted, sum.1 + row.found));
        write!(out, "{:12} {judge:22} {planted:8} {found:8}", "all")
    }
}
