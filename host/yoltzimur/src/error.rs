//! Why a call is refused: the numbers of the library, each with its text.

use std::fmt;

/// What a call is refused by. Checks run in the papers' order, and the first that fails is told.
#[derive(Clone, Copy, Debug, PartialEq, Eq, Hash)]
#[non_exhaustive]
pub enum Error {
    /// 1: the record is shorter than 60 bytes or does not begin with 160.
    Record,
    /// 2: the shape is beyond its limits.
    Shape,
    /// 3: a slice is too short.
    Buffer,
    /// 4: the payload's head is missing or wrong. Of a [`pool`](crate::Session::pool) it may be either payload's, and so may 5 and 6.
    Head,
    /// 5: the payload's backward half is missing or wrong.
    BackwardHalf,
    /// 6: the payload's forward half is missing or wrong. Where the shape's flag bit 0 is set, an [`update`](crate::field::update) and a
    /// [`take`](crate::Session::take) leave the backward set new all the same, and by a take a session has lost its steps and been filled
    /// afresh. A [`pool`](crate::Session::pool) leaves everything as it was.
    ForwardHalf,
    /// 7: a time, cover, SAD scale or sad is outside its range.
    Range,
    /// 8: a block is not one of the grid.
    Place,
    /// 9: there is no step to undo.
    NoPast,
    /// 10: there is no step to redo.
    NoFuture,
    /// 11: the step counts, or a slot of the run that is undone or redone, do not fit the history and the shape. A
    /// [`Session`](crate::Session) never meets it.
    Steps,
    /// 12: a kept count is above the number of blocks. A [`Session`](crate::Session) never meets it.
    Counts,
    /// A number that this crate does not know: the archive is of another version.
    Other(u32),
    /// There is no memory for a session's buffers. No number of the library.
    Memory,
}

impl Error {
    /// The number by which the library refuses, if it is the library that does.
    pub fn number(self) -> Option<u32> {
        match self {
            Error::Record => Some(1),
            Error::Shape => Some(2),
            Error::Buffer => Some(3),
            Error::Head => Some(4),
            Error::BackwardHalf => Some(5),
            Error::ForwardHalf => Some(6),
            Error::Range => Some(7),
            Error::Place => Some(8),
            Error::NoPast => Some(9),
            Error::NoFuture => Some(10),
            Error::Steps => Some(11),
            Error::Counts => Some(12),
            Error::Other(number) => Some(number),
            Error::Memory => None,
        }
    }

    /// A number as the library answers it: 0 is accepted.
    pub(crate) fn check(number: u32) -> Result<(), Error> {
        Err(match number {
            0 => return Ok(()),
            1 => Error::Record,
            2 => Error::Shape,
            3 => Error::Buffer,
            4 => Error::Head,
            5 => Error::BackwardHalf,
            6 => Error::ForwardHalf,
            7 => Error::Range,
            8 => Error::Place,
            9 => Error::NoPast,
            10 => Error::NoFuture,
            11 => Error::Steps,
            12 => Error::Counts,
            other => Error::Other(other),
        })
    }
}

impl fmt::Display for Error {
    fn fmt(&self, out: &mut fmt::Formatter<'_>) -> fmt::Result {
        out.write_str(match self {
            Error::Record => "the record is short or does not begin with 160",
            Error::Shape => "the shape is beyond its limits",
            Error::Buffer => "a buffer is too short",
            Error::Head => "the payload's head is missing or wrong",
            Error::BackwardHalf => "the payload's backward half is missing or wrong",
            Error::ForwardHalf => "the payload's forward half is missing or wrong",
            Error::Range => "a time, cover, SAD scale or sad is outside its range",
            Error::Place => "the block is not in the grid",
            Error::NoPast => "there is no step to undo",
            Error::NoFuture => "there is no step to redo",
            Error::Steps => "the step counts or a slot of the run do not fit",
            Error::Counts => "a kept count is above the number of blocks",
            Error::Other(number) => return write!(out, "refused by {number}, which this crate does not know"),
            Error::Memory => "there is no memory for the buffers",
        })
    }
}

impl std::error::Error for Error {}

#[cfg(test)]
mod tests {
    use super::Error;

    #[test]
    fn every_number_is_an_error_that_names_it() {
        assert_eq!(Error::check(0), Ok(()));
        for number in 1..=13 {
            assert_eq!(Error::check(number).unwrap_err().number(), Some(number));
        }
        assert_eq!(Error::check(12), Err(Error::Counts));
        assert_eq!(Error::check(13), Err(Error::Other(13)));
        assert_eq!(Error::Other(13).to_string(), "refused by 13, which this crate does not know");
    }
}
