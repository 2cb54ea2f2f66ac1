//! What ends the tool early: a message, and the exit status that goes with it.

/// A message for a person and an exit status.
#[derive(Debug)]
pub struct Fault {
    pub status: u8,
    pub message: String,
}

impl Fault {
    /// A file or a script is not as it should be, or a file cannot be read or written.
    pub fn input(message: impl Into<String>) -> Fault {
        Fault { status: 1, message: message.into() }
    }

    /// The arguments are not as they should be.
    pub fn usage(message: impl Into<String>) -> Fault {
        Fault { status: 2, message: message.into() + " (touchup --help lists the arguments)" }
    }

    /// The library refused a call that everything after it needs.
    pub fn refused(message: impl Into<String>) -> Fault {
        Fault { status: 3, message: message.into() }
    }
}
