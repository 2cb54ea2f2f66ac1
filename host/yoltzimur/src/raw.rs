//! The exports of `libunit.a` for this crate's types, and the structs that they answer. All unsafe code of the crate is in what the
//! two macros of `exports` make here; that crate says why it is sound.

use crate::types::{Counts, FieldShape, SceneLimits, Sizes, VectorData};

pub use exports::Buffers;
pub(crate) use exports::Owned;

/// The answer of `unit_vector_data`: its number, and the values, all 0 beside a refusal.
#[repr(C)]
#[derive(Clone, Copy, Debug, PartialEq, Eq)]
pub struct Record {
    pub number: u32,
    pub values: VectorData,
}

/// The answer of `unit_sizes`: its number, and the sizes, all 0 beside a refusal.
#[repr(C)]
#[derive(Clone, Copy, Debug, PartialEq, Eq)]
pub struct Least {
    pub number: u32,
    pub sizes: Sizes,
}

/// The answer of `unit_quality` and of `unit_kept_class`: its number, and the class, 0 beside a refusal.
#[repr(C)]
#[derive(Clone, Copy, Debug, PartialEq, Eq)]
pub struct Class {
    pub number: u32,
    pub value: u32,
}

/// A session, as it goes in and comes back. Any values are safe.
#[repr(C)]
#[derive(Clone, Copy, Debug, Default, PartialEq, Eq)]
pub struct State {
    pub shape: FieldShape,
    pub side: u32,
    pub limits: SceneLimits,
    pub time: i32,
    pub past: u32,
    pub future: u32,
    pub kept: Counts,
}

/// The answer of a session call that is lent buffers: its number, and the session after it.
#[repr(C)]
#[derive(Clone, Copy, Debug, PartialEq, Eq)]
pub struct Answer {
    pub number: u32,
    pub state: State,
}

exports::laid_out! {
    VectorData: 48 { block: 4, marker: 28 },
    Record: 52 { values: 4 },
    Sizes: 96 { mask: 72, packed_width: 80, packed_height: 88 },
    Least: 104 { sizes: 8 },
    Counts: 16 { scene: 4, m2: 8, m1: 12 },
    State: 96 { side: 44, limits: 48, time: 68, past: 72, future: 76, kept: 80 },
    Answer: 100 { state: 4 }
}

exports::field_calls! { shape: FieldShape, limits: SceneLimits, record: Record, sizes: Least, class: Class }
exports::session_calls! { shape: FieldShape, limits: SceneLimits, session: State, answer: Answer, class: Class }
