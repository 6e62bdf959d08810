//! Safe calls of a Core War machine that is proved in Rattle: a fresh machine, placing a body, starting a process, loading a
//! whole match, step, run and cell reading on memory that the caller owns, and reading a match file.
//!
//! The library promises what docs/MACHINE.md says of every call, for every content of memories, header, name, body and file.
//! What it takes for granted is that a pointer is good for its length; here a slice says so. Memory that comes as pointers
//! goes through [`Machine::from_raw_parts`], which refuses null, misaligned, too long and overlapping memory. What comes
//! back is tested, too, in case another library is linked: a number that its table does not have, or a part that is not
//! within the file, is a panic and never a read outside.

mod answer;
mod machine;
mod match_file;
mod raw;

pub use answer::Answer;
pub use machine::{Cell, Header, Loads, Machine, NotLent, Report, Ring, Roster, Rules};
pub use match_file::{Match, Warrior, NO_ORIGIN};
