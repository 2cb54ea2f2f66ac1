//! The buffers that a call over two sets is lent, as an input says.

use draw::Draw;
use model::entry::Entry;
use model::fields::Sets;
use model::shape::{Shape, TABLE};

use crate::field::{Field, NAMES};
use crate::guarded::Guarded;
use crate::plant::{self, Part};

/// Those that a call is not lent are empty.
#[derive(Clone)]
pub struct Lent {
    pub backward: Guarded<u8>,
    pub forward: Guarded<u8>,
    pub table: Guarded<u8>,
    pub averages: Guarded<u8>,
    pub map: Guarded<u8>,
    pub mask: Guarded<u8>,
    pub payload: Guarded<u8>,
    pub xs: Guarded<u16>,
    pub ys: Guarded<u16>,
    pub scratch: Guarded<i32>,
}

/// What a call is lent beside both sets.
#[derive(Clone, Copy, PartialEq, Eq)]
pub enum Beside {
    Table,
    Averages,
    Map,
    Mask,
    Payload,
    Planes,
    Scratch,
}

impl Beside {
    const fn names(self) -> &'static [&'static str] {
        match self {
            Self::Table => &["table"],
            Self::Averages => &["averages"],
            Self::Map => &["map"],
            Self::Mask => &["mask"],
            Self::Payload => &["payload"],
            Self::Planes => &["xs", "ys"],
            Self::Scratch => &["scratch"],
        }
    }
}

/// The parts of a call's answer in which a difference can be planted.
pub fn parts(beside: &[Beside]) -> Vec<Part> {
    let names = ["backward", "forward"].iter().chain(beside.iter().flat_map(|what| what.names()));
    plant::parts(&[Part::Number], names.copied())
}

/// The length of a buffer: what it must have, or some number where the shape says nothing, and what is added or taken away.
fn length(field: &Field, buffer: usize) -> usize {
    let least = if field.shape.accepted() { least(&field.shape, buffer) } else { 40 };
    (least as i64 + i64::from(field.extra[buffer])).max(0) as usize
}

fn least(shape: &Shape, buffer: usize) -> usize {
    match NAMES[buffer] {
        "backward" | "forward" => shape.set_size(),
        "table" => TABLE,
        "averages" | "map" => shape.blocks(),
        "scratch" => shape.grid_size(),
        _ => shape.plane_size(),
    }
}

fn bytes(set: &[Entry]) -> Vec<u8> {
    let mut out = Vec::with_capacity(8 * set.len());
    set.iter().for_each(|entry| out.extend(entry.bytes()));
    out
}

impl Lent {
    pub fn new(field: &Field, beside: &[Beside]) -> Self {
        let seed = field.seed;
        let lend = |what: Beside, buffer: usize, start: &[u8]| {
            if beside.contains(&what) { Guarded::new(start, length(field, buffer), seed) } else { Guarded::none() }
        };
        let plane = |buffer: usize| {
            let lent = beside.contains(&Beside::Planes);
            if lent { Guarded::new(&[], length(field, buffer), seed) } else { Guarded::none() }
        };
        let table = if beside.contains(&Beside::Table) { Draw::new(u64::from(seed)).bytes(TABLE) } else { Vec::new() };
        let scratch = beside.contains(&Beside::Scratch);
        let payload = beside.contains(&Beside::Payload);
        Self {
            backward: Guarded::new(&bytes(&field.backward), length(field, 0), seed),
            forward: Guarded::new(&bytes(&field.forward), length(field, 1), seed),
            table: lend(Beside::Table, 2, &table),
            averages: lend(Beside::Averages, 3, &field.averages),
            map: lend(Beside::Map, 4, &[]),
            mask: lend(Beside::Mask, 5, &[]),
            payload: if payload { Guarded::new(&field.payload, field.payload.len(), 0) } else { Guarded::none() },
            xs: plane(6),
            ys: plane(7),
            scratch: if scratch { Guarded::new(&[], length(field, 8), seed) } else { Guarded::none() },
        }
    }

    pub fn sets(&self) -> Sets<'_> {
        Sets { backward: self.backward.body(), forward: self.forward.body() }
    }

    fn all_bytes(&self) -> [(&'static str, &Guarded<u8>); 7] {
        [
            ("backward", &self.backward),
            ("forward", &self.forward),
            ("table", &self.table),
            ("averages", &self.averages),
            ("map", &self.map),
            ("mask", &self.mask),
            ("payload", &self.payload),
        ]
    }

    /// The first difference from what is expected, in any buffer, surplus and guards included.
    pub fn difference(&self, expected: &Self) -> Option<String> {
        let named = |name: &str, text: Option<String>| text.map(|text| format!("{name}{text}"));
        let mut pairs = self.all_bytes().into_iter().zip(expected.all_bytes());
        pairs
            .find_map(|((name, ours), (_, other))| named(name, ours.difference(other)))
            .or_else(|| named("xs", self.xs.difference(&expected.xs)))
            .or_else(|| named("ys", self.ys.difference(&expected.ys)))
            .or_else(|| named("scratch", self.scratch.difference(&expected.scratch)))
    }

    /// Changes what is planted.
    pub fn plant(&mut self, call: &str) {
        plant::buffer(call, "backward", &mut self.backward);
        plant::buffer(call, "forward", &mut self.forward);
        plant::buffer(call, "table", &mut self.table);
        plant::buffer(call, "averages", &mut self.averages);
        plant::buffer(call, "map", &mut self.map);
        plant::buffer(call, "mask", &mut self.mask);
        plant::buffer(call, "payload", &mut self.payload);
        plant::buffer(call, "xs", &mut self.xs);
        plant::buffer(call, "ys", &mut self.ys);
        plant::buffer(call, "scratch", &mut self.scratch);
    }
}
