//! Simpler inputs than one that differs, for the calls over two sets.

use std::ops::Range;

use model::entry::Entry;
use model::session::Limits;
use model::shape::Shape;

use crate::field::Field;
use crate::tried::Change;

type Changes = Vec<Change<Field>>;

impl Field {
    /// Fewer blocks, plainer shapes, plainer numbers, fewer vectors, shorter payloads.
    pub fn smaller(&self) -> Changes {
        let mut out = Changes::new();
        self.fewer_blocks(&mut out);
        for shape in plainer_shapes(&self.shape) {
            out.push(Box::new(move |field| field.shape = shape));
        }
        self.plainer_numbers(&mut out);
        self.plainer_sets(&mut out);
        self.plainer_entries(&mut out);
        out
    }

    /// Half the columns or rows, or one less.
    fn fewer_blocks(&self, out: &mut Changes) {
        let s = self.shape;
        let (w, h) = (s.grid_w, s.grid_h);
        for (grid_w, grid_h) in [(w / 2, h), (w, h / 2), (w - 1, h), (w, h - 1)] {
            if s.accepted() && grid_w > 0 && grid_h > 0 && (grid_w, grid_h) != (w, h) {
                out.push(Box::new(move |field| field.cut(Shape { grid_w, grid_h, ..s })));
            }
        }
    }

    /// Keeps the blocks of a smaller grid.
    fn cut(&mut self, shape: Shape) {
        let (old, columns, rows) = (self.shape.grid_w as usize, shape.grid_w as usize, shape.grid_h as usize);
        let kept = move || (0..rows).flat_map(move |row| (0..columns).map(move |column| row * old + column));
        self.backward = kept().map(|block| self.backward[block]).collect();
        self.forward = kept().map(|block| self.forward[block]).collect();
        self.averages = kept().map(|block| self.averages[block]).collect();
        self.shape = shape;
    }

    fn plainer_numbers(&self, out: &mut Changes) {
        let mut when = |differs: bool, change: Change<Self>| {
            if differs {
                out.push(change);
            }
        };
        when(self.extra != [0; 9], Box::new(|field| field.extra = [0; 9]));
        for at in 0..9 {
            when(self.extra[at] != 0, Box::new(move |field| field.extra[at] = 0));
        }
        when(self.side == 2, Box::new(|field| field.side = 1));
        when(self.time != 0, Box::new(|field| field.time = 0));
        when(self.time / 2 != 0, Box::new(|field| field.time /= 2));
        when(self.cover != 100, Box::new(|field| field.cover = 100));
        when(self.sad_scale.to_bits() != 1.0f64.to_bits(), Box::new(|field| field.sad_scale = 1.0));
        when(self.limits != Limits::default(), Box::new(|field| field.limits = Limits::default()));
        when(self.seed != 0, Box::new(|field| field.seed = 0));
        for end in [self.payload.len() / 2, self.payload.len().saturating_sub(1)] {
            when(end < self.payload.len(), Box::new(move |field| field.payload.truncate(end)));
        }
    }

    /// Whole sets zero, halves of them, single blocks of them; averages of 1.
    fn plainer_sets(&self, out: &mut Changes) {
        let n = self.backward.len();
        let blocks = (0..n.min(40)).map(|block| block..block + 1);
        for span in [0..n, 0..n / 2, n / 2..n].into_iter().chain(blocks) {
            for side in [1, 2] {
                if self.set(side)[span.clone()].iter().any(|entry| *entry != Entry::default()) {
                    let span = span.clone();
                    out.push(Box::new(move |field| field.set_mut(side)[span.clone()].fill(Entry::default())));
                }
            }
            self.plainer_averages(span, out);
        }
    }

    fn plainer_averages(&self, span: Range<usize>, out: &mut Changes) {
        if self.averages[span.clone()].iter().any(|&average| average != 1) {
            out.push(Box::new(move |field| field.averages[span.clone()].fill(1)));
        }
    }

    /// Each number of the first blocks on its own.
    fn plainer_entries(&self, out: &mut Changes) {
        for block in 0..self.backward.len().min(20) {
            for side in [1, 2] {
                for plain in plainer_entry(self.set(side)[block]) {
                    out.push(Box::new(move |field| field.set_mut(side)[block] = plain));
                }
            }
        }
    }

    fn set_mut(&mut self, side: u32) -> &mut [Entry] {
        if side == 1 { &mut self.backward } else { &mut self.forward }
    }
}

/// A shape with one of its fields plain, halved or one less; the grid stays.
pub fn plainer_shapes(shape: &Shape) -> Vec<Shape> {
    let plain = [0, 8, 8, 1, 24, 24, 0, 0, 1, 1, 0];
    let fields = shape.fields();
    let mut out = Vec::new();
    for at in [0, 1, 2, 3, 4, 5, 6, 7, 10] {
        for value in [plain[at], fields[at] / 2, fields[at] - fields[at].signum()] {
            if value.unsigned_abs() < fields[at].unsigned_abs() {
                let mut other = fields;
                other[at] = value;
                out.push(Shape::from_fields(other));
            }
        }
    }
    out
}

/// An entry with one of its numbers 0 or halved.
fn plainer_entry(entry: Entry) -> Vec<Entry> {
    let all = [
        Entry { x: 0, ..entry },
        Entry { y: 0, ..entry },
        Entry { sad: 0, ..entry },
        Entry { luma: 0, ..entry },
        Entry { x: entry.x / 2, ..entry },
        Entry { y: entry.y / 2, ..entry },
        Entry { sad: entry.sad / 2, ..entry },
    ];
    all.into_iter().filter(|other| *other != entry).collect()
}
