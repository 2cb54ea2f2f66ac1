//! Buffers as they are lent: of exactly their length, with marked elements before and behind that no call may touch.

use std::fmt::Debug;
use std::sync::atomic::{AtomicUsize, Ordering};

static GUARD: AtomicUsize = AtomicUsize::new(9);

/// From now on nothing stands around a buffer: a memory checker sees its ends.
pub fn exact() {
    GUARD.store(0, Ordering::Relaxed);
}

pub trait Element: Copy + PartialEq + Debug {
    const MARK: Self;

    /// What stands at a place before a call.
    fn before(seed: u32, at: usize) -> Self;

    /// The element with one bit changed.
    fn changed(self) -> Self;
}

macro_rules! element {
    ($type:ty, $mark:expr) => {
        impl Element for $type {
            const MARK: Self = $mark;

            fn before(seed: u32, at: usize) -> Self {
                (seed.wrapping_mul(977).wrapping_add(31 * at as u32) % 65_521) as Self
            }

            fn changed(self) -> Self {
                self ^ 1
            }
        }
    };
}

element!(u8, 0xA5);
element!(u16, 0xA5A5);
element!(i32, 0x5A5A_5A5A);

#[derive(Clone, PartialEq)]
pub struct Guarded<T> {
    all: Box<[T]>,
    guard: usize,
}

impl<T: Element> Guarded<T> {
    pub fn none() -> Self {
        Self { all: Box::default(), guard: 0 }
    }

    /// A buffer that begins with `start`, as long as `length` says: cut there, or filled up.
    pub fn new(start: &[T], length: usize, seed: u32) -> Self {
        let guard = GUARD.load(Ordering::Relaxed);
        let mut all = Vec::with_capacity(length + 2 * guard);
        all.resize(guard, T::MARK);
        all.extend(start.iter().take(length));
        all.extend((all.len() - guard..length).map(|at| T::before(seed, at)));
        all.resize(length + 2 * guard, T::MARK);
        Self { all: all.into_boxed_slice(), guard }
    }

    pub fn body(&self) -> &[T] {
        &self.all[self.guard..self.all.len() - self.guard]
    }

    pub fn body_mut(&mut self) -> &mut [T] {
        let end = self.all.len() - self.guard;
        &mut self.all[self.guard..end]
    }

    /// Two lengths, or the first place where two differ: its index in the body, which is out of it for a guard, and both elements.
    pub fn difference(&self, expected: &Self) -> Option<String> {
        if self.all == expected.all {
            return None;
        }
        if self.all.len() != expected.all.len() {
            return Some(format!("[] of {}: a length of {} is expected", self.body().len(), expected.body().len()));
        }
        let at = self.all.iter().zip(&expected.all).position(|(a, b)| a != b)?;
        let (index, length) = (at as i64 - self.guard as i64, self.body().len());
        Some(format!("[{index}] of {length}: {:?}, expected {:?}", self.all[at], expected.all[at]))
    }

    /// The same beside a body alone, and guards as they were marked.
    pub fn difference_from(&self, expected: &[T]) -> Option<String> {
        let (front, behind) = (&self.all[..self.guard], &self.all[self.all.len() - self.guard..]);
        if self.body() == expected && front.iter().chain(behind).all(|&mark| mark == T::MARK) {
            return None;
        }
        self.difference(&Self::new(expected, expected.len(), 0))
    }

    /// Changes one element, if there is one: before the body, its first, its last, or behind it.
    pub fn plant(&mut self, place: Place) {
        let (guard, end) = (self.guard, self.all.len() - self.guard);
        let at = match place {
            Place::Before => guard.checked_sub(1),
            Place::First => (guard < end).then_some(guard),
            Place::Last => (guard < end).then(|| end - 1),
            Place::Behind => (guard > 0).then_some(end),
        };
        if let Some(at) = at {
            self.all[at] = self.all[at].changed();
        }
    }
}

#[derive(Clone, Copy, PartialEq, Eq, Debug)]
pub enum Place {
    Before,
    First,
    Last,
    Behind,
}

#[cfg(test)]
mod tests {
    use super::*;

    #[test]
    fn a_length_an_element_and_a_guard_are_differences() {
        let three = Guarded::new(&[1u8, 2, 3], 3, 0);
        assert_eq!((three.difference(&three.clone()), three.difference_from(&[1, 2, 3])), (None, None));
        let longer = Some(String::from("[] of 3: a length of 4 is expected"));
        assert_eq!(three.difference(&Guarded::new(&[1, 2, 3, 4], 4, 0)), longer);
        assert_eq!(three.difference_from(&[1, 2, 3, Element::MARK]), longer);
        assert_eq!(three.difference_from(&[1, 2]), Some(String::from("[] of 3: a length of 2 is expected")));
        assert_eq!(three.difference_from(&[1, 0, 3]), Some(String::from("[1] of 3: 2, expected 0")));
        let mut marked = three.clone();
        marked.plant(Place::Before);
        assert_eq!(marked.difference(&three), Some(String::from("[-1] of 3: 164, expected 165")));
    }
}
