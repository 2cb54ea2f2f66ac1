//! The nine lent buffers with guards around each.

use boundary::session::Lent;
use model::history::{GESTURE, SLOT};
use model::session::Buffers;

use crate::guarded::Guarded;
use crate::plant;

pub const NAMES: [&str; 9] = ["backward", "forward", "table", "grid", "xs", "ys", "averages", "map", "history"];

pub struct Nine {
    backward: Guarded<u8>,
    forward: Guarded<u8>,
    table: Guarded<u8>,
    grid: Guarded<i32>,
    xs: Guarded<u16>,
    ys: Guarded<u16>,
    averages: Guarded<u8>,
    map: Guarded<u8>,
    history: Guarded<u8>,
}

fn bytes(body: &[u8]) -> Guarded<u8> {
    Guarded::new(body, body.len(), 0)
}

impl Nine {
    pub fn new(b: &Buffers) -> Self {
        Self {
            backward: bytes(&b.backward),
            forward: bytes(&b.forward),
            table: bytes(&b.table),
            grid: Guarded::new(&b.grid, b.grid.len(), 0),
            xs: Guarded::new(&b.xs, b.xs.len(), 0),
            ys: Guarded::new(&b.ys, b.ys.len(), 0),
            averages: bytes(&b.averages),
            map: bytes(&b.map),
            history: bytes(&b.history),
        }
    }

    pub fn lent(&mut self) -> Lent<'_> {
        Lent {
            backward: self.backward.body_mut(),
            forward: self.forward.body_mut(),
            table: self.table.body(),
            grid: self.grid.body_mut(),
            xs: self.xs.body_mut(),
            ys: self.ys.body_mut(),
            averages: self.averages.body_mut(),
            map: self.map.body_mut(),
            history: self.history.body_mut(),
        }
    }

    /// The bodies, lent to something else than the archive.
    pub fn lent_to<T>(&mut self, other: impl FnOnce(&mut Buffers) -> T) -> T {
        let mut b = Buffers {
            backward: self.backward.body().to_vec(),
            forward: self.forward.body().to_vec(),
            table: self.table.body().to_vec(),
            grid: self.grid.body().to_vec(),
            xs: self.xs.body().to_vec(),
            ys: self.ys.body().to_vec(),
            averages: self.averages.body().to_vec(),
            map: self.map.body().to_vec(),
            history: self.history.body().to_vec(),
        };
        let out = other(&mut b);
        self.backward.body_mut().copy_from_slice(&b.backward);
        self.forward.body_mut().copy_from_slice(&b.forward);
        self.grid.body_mut().copy_from_slice(&b.grid);
        self.xs.body_mut().copy_from_slice(&b.xs);
        self.ys.body_mut().copy_from_slice(&b.ys);
        self.averages.body_mut().copy_from_slice(&b.averages);
        self.map.body_mut().copy_from_slice(&b.map);
        self.history.body_mut().copy_from_slice(&b.history);
        out
    }

    /// The first difference from what is expected, in any buffer, surplus and guards included.
    pub fn difference(&self, expected: &Buffers) -> Option<String> {
        let named = |name: &str, text: Option<String>| text.map(|text| format!("{name}{text}"));
        let pairs = [
            ("backward", &self.backward, &expected.backward),
            ("forward", &self.forward, &expected.forward),
            ("table", &self.table, &expected.table),
            ("averages", &self.averages, &expected.averages),
            ("map", &self.map, &expected.map),
            ("history", &self.history, &expected.history),
        ];
        pairs
            .into_iter()
            .find_map(|(name, ours, other)| named(name, ours.difference_from(other)))
            .or_else(|| named("grid", self.grid.difference_from(&expected.grid)))
            .or_else(|| named("xs", self.xs.difference_from(&expected.xs)))
            .or_else(|| named("ys", self.ys.difference_from(&expected.ys)))
    }

    /// Changes what is planted.
    pub fn plant(&mut self, call: &str) {
        plant::buffer(call, "backward", &mut self.backward);
        plant::buffer(call, "forward", &mut self.forward);
        plant::buffer(call, "table", &mut self.table);
        plant::buffer(call, "grid", &mut self.grid);
        plant::buffer(call, "xs", &mut self.xs);
        plant::buffer(call, "ys", &mut self.ys);
        plant::buffer(call, "averages", &mut self.averages);
        plant::buffer(call, "map", &mut self.map);
        plant::buffer(call, "history", &mut self.history);
    }

    /// Changes a byte of the gesture of the last past step if that is planted.
    pub fn plant_gesture(&mut self, call: &str, past: usize) {
        for (byte, part) in plant::gesture_parts().into_iter().enumerate() {
            if plant::planted(call, part) {
                self.history.body_mut()[SLOT * (past - 1) + GESTURE + byte] ^= 1;
            }
        }
    }
}
