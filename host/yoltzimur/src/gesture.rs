//! Gestures: which puts one undo takes back together.

/// The number that the puts of a gesture carry. Steps that stand next to each other with one number are one gesture:
/// [`undo`](crate::Session::undo) takes all of them back, and [`redo`](crate::Session::redo) makes all of them again.
///
/// Any number will do, and none of them stands for no gesture. [`Gestures`] hands out numbers that differ; one that comes from elsewhere is
/// made by `Gesture::from`.
#[derive(Clone, Copy, Debug, PartialEq, Eq, Hash)]
pub struct Gesture(u32);

impl Gesture {
    pub const fn number(self) -> u32 {
        self.0
    }
}

impl From<u32> for Gesture {
    fn from(number: u32) -> Gesture {
        Gesture(number)
    }
}

/// Hands out a number for each gesture as it begins. The same one comes again only after 2^32 of them; a history holds at most 4,096 steps,
/// so that in practice those that had it are long gone. Steps that are there still are joined only where they are the last.
///
/// ```
/// # use yoltzimur::{BlockVector, Error, Gestures, Session, Side};
/// # fn turned(session: &mut Session) -> Result<(), Error> {
/// let mut gestures = Gestures::new();
/// let turn = gestures.begin();
/// for x in 1..=40 {
///     session.put(Side::Backward, 7, BlockVector { x, y: 0, sad: 500, luma: 90 }, turn)?;
/// }
/// session.undo()?; // all forty
/// # Ok(())
/// # }
/// ```
///
/// A put with [`begin`](Gestures::begin) in the gesture's place is a gesture of its own. A session is to have one source, and a source has
/// no clone: numbers of two sources, or of one and of [`Gesture::from`], may be equal, and then steps that are next to each other are one
/// gesture.
#[derive(Debug, Default, PartialEq, Eq)]
pub struct Gestures {
    next: u32,
}

impl Gestures {
    /// A source whose first number is 0.
    pub const fn new() -> Gestures {
        Gestures { next: 0 }
    }

    /// A source whose first number is another, to go on from numbers that are in use.
    pub const fn starting_at(first: Gesture) -> Gestures {
        Gestures { next: first.0 }
    }

    /// A number for a gesture that begins now. Behind the last number comes 0.
    pub fn begin(&mut self) -> Gesture {
        let begun = Gesture(self.next);
        self.next = self.next.wrapping_add(1);
        begun
    }
}

#[cfg(test)]
mod tests {
    use super::{Gesture, Gestures};

    #[test]
    fn numbers_count_up_and_wrap() {
        let mut gestures = Gestures::new();
        assert_eq!([(); 3].map(|()| gestures.begin().number()), [0, 1, 2]);
        let mut last = Gestures::starting_at(Gesture::from(u32::MAX - 1));
        assert_eq!([(); 4].map(|()| last.begin().number()), [u32::MAX - 1, u32::MAX, 0, 1]);
        assert_eq!(Gestures::default(), Gestures::new());
    }
}
