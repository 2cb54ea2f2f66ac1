//! The session, its limits, the counts that it keeps and the nine lent buffers (paper 01, 'Session'; paper 02, 1/14).

use crate::shape::{Shape, sizes};

/// Any i32 each.
#[derive(Clone, Copy, PartialEq, Eq, Debug, Default)]
#[repr(C)]
pub struct Limits {
    pub blocks: i32,
    pub zero: i32,
    pub m1: i32,
    pub m2: i32,
    pub scene: i32,
}

impl Limits {
    /// Limits like any other.
    pub const USUAL: Self = Self { blocks: 20, zero: 200, m1: 1600, m2: 2800, scene: 4000 };

    pub const fn from_fields([blocks, zero, m1, m2, scene]: [i32; 5]) -> Self {
        Self { blocks, zero, m1, m2, scene }
    }

    pub const fn fields(&self) -> [i32; 5] {
        [self.blocks, self.zero, self.m1, self.m2, self.scene]
    }
}

/// What a class is made of: how many blocks count, and how many of them stand at each of scene, m2 and m1.
#[derive(Clone, Copy, PartialEq, Eq, Debug, Default)]
#[repr(C)]
pub struct Counts {
    pub counted: u32,
    pub scene: u32,
    pub m2: u32,
    pub m1: u32,
}

impl Counts {
    pub const NAMES: [&str; 4] = ["counted", "scene", "m2", "m1"];

    pub const fn from_fields([counted, scene, m2, m1]: [u32; 4]) -> Self {
        Self { counted, scene, m2, m1 }
    }

    pub const fn fields(&self) -> [u32; 4] {
        [self.counted, self.scene, self.m2, self.m1]
    }

    /// Each count without what a block gave to it before and with what it gives now, modulo 2^32.
    pub fn moved(&self, before: &Self, now: &Self) -> Self {
        let (before, now) = (before.fields(), now.fields());
        let mut fields = self.fields();
        for (at, count) in fields.iter_mut().enumerate() {
            *count = count.wrapping_sub(before[at]).wrapping_add(now[at]);
        }
        Self::from_fields(fields)
    }
}

#[derive(Clone, Copy, PartialEq, Eq, Debug, Default)]
#[repr(C)]
pub struct Session {
    pub shape: Shape,
    /// The shown side: 1 backward, 2 forward.
    pub side: u32,
    pub limits: Limits,
    pub time: i32,
    /// How many past and future steps there are.
    pub past: u32,
    pub future: u32,
    /// Those of the shown side's scores.
    pub kept: Counts,
}

/// The 32-bit fields of a session.
pub const FIELDS: usize = 24;

impl Session {
    /// The fields in order, bit for bit.
    pub fn fields(&self) -> [u32; FIELDS] {
        let mut out = [0; FIELDS];
        let signed = self.shape.fields().into_iter().map(i32::cast_unsigned);
        let limits = self.limits.fields().into_iter().map(i32::cast_unsigned);
        let steps = [self.time.cast_unsigned(), self.past, self.future];
        let all = signed.chain([self.side]).chain(limits).chain(steps).chain(self.kept.fields());
        for (field, value) in out.iter_mut().zip(all) {
            *field = value;
        }
        out
    }

    pub fn from_fields(f: [u32; FIELDS]) -> Self {
        let signed = f.map(u32::cast_signed);
        let (mut shape, mut limits) = ([0; 11], [0; 5]);
        shape.copy_from_slice(&signed[..11]);
        limits.copy_from_slice(&signed[12..17]);
        let [.., counted, scene, m2, m1] = f;
        Self {
            shape: Shape::from_fields(shape),
            side: f[11],
            limits: Limits::from_fields(limits),
            time: signed[17],
            past: f[18],
            future: f[19],
            kept: Counts { counted, scene, m2, m1 },
        }
    }
}

/// What every session call answers.
#[derive(Clone, Copy, PartialEq, Eq, Debug)]
#[repr(C)]
pub struct Answer {
    pub number: u32,
    pub session: Session,
}

/// What is lent to each call, in order. The table is never written.
#[derive(Clone, PartialEq, Eq, Debug, Default)]
pub struct Buffers {
    pub backward: Vec<u8>,
    pub forward: Vec<u8>,
    pub table: Vec<u8>,
    pub grid: Vec<i32>,
    pub xs: Vec<u16>,
    pub ys: Vec<u16>,
    pub averages: Vec<u8>,
    pub map: Vec<u8>,
    pub history: Vec<u8>,
}

impl Buffers {
    pub const fn lengths(&self) -> [usize; 9] {
        [
            self.backward.len(),
            self.forward.len(),
            self.table.len(),
            self.grid.len(),
            self.xs.len(),
            self.ys.len(),
            self.averages.len(),
            self.map.len(),
            self.history.len(),
        ]
    }

    /// Each of the nine has its size, of an accepted shape.
    pub fn fit(&self, shape: &Shape) -> bool {
        self.lengths().iter().zip(sizes(shape)).all(|(&length, least)| length >= least)
    }

    /// The set of a side.
    pub fn set(&self, side: u32) -> &[u8] {
        if side == 1 { &self.backward } else { &self.forward }
    }

    pub fn set_mut(&mut self, side: u32) -> &mut [u8] {
        if side == 1 { &mut self.backward } else { &mut self.forward }
    }
}
