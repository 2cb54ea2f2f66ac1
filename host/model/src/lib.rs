//! A plain model of paper 01, and of what paper 02 adds to it (1/14, 'Class without a walk'; 2/14, 'One gesture, one undo'; 3/14, 'Two estimators
//! pooled'), written from the papers alone: direct sums, no patching but where they patch, nothing fast.
//!
//! Structs that cross to C are laid out as in `include/unit.h`. Every call is here with its number: the calls on fields (`fields`), the session's calls on any session and any buffers (`calls`), and beside
//! them the paper's machine (`machine`) with its layout (`layout`).

pub mod bytes; // numbers in bytes, little-endian
pub mod class; // counts of scores, and their class
pub mod entry; // entries of 8 bytes
pub mod luma; // averages, scores and the quality map
pub mod masks; // cover mask and SAD mask
pub mod modulo; // sums and products modulo 2^32
pub mod planes; // the packed planes
pub mod pooled; // two payloads pooled
pub mod record; // the vector record
pub mod scatter; // the coverage grid
pub mod shape; // shapes, their limits and sizes
pub mod update; // payloads

pub mod fields; // the calls that know no session, with their numbers

pub mod calls; // the session's calls on any session and any buffers
pub mod history; // the undo list in bytes, and its runs
pub mod numbers; // the conditions of the session's calls
pub mod session; // session, limits and the nine lent buffers

pub mod layout; // a machine state in session and buffers
pub mod machine; // the paper's machine

pub mod drawn; // inputs drawn from a seed
pub mod folder; // a tool that writes into a folder
pub mod list; // lists of calls as bytes, and their player
pub mod recorded; // the lists that playback plays
