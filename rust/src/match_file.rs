//! Reading a match file.
use crate::{raw, Answer};

/// The origin of a warrior that has none, meaning 0.
pub const NO_ORIGIN: u16 = 65535;

/// A match file that reads.
#[derive(Clone, Copy, Debug)]
pub struct Match<'a> {
    file: &'a [u8],
    /// M.
    pub size: u32,
    /// How many warriors it has.
    pub warriors: usize,
}

/// A warrior of a match file: parts of the file, and its numbers.
#[derive(Clone, Copy, Debug, PartialEq, Eq)]
pub struct Warrior<'a> {
    pub name: &'a [u8],
    pub body: &'a [u8],
    /// A program that places and starts the warrior itself starts it at (place + origin) mod the core's size, an origin of
    /// [`NO_ORIGIN`] being 0.
    pub origin: u16,
    pub place: u32,
}

impl<'a> Match<'a> {
    /// Reads a file; a fault is `Malformed` with its position.
    pub fn read(file: &'a [u8]) -> Result<Match<'a>, Answer> {
        // SAFETY: a slice is not null.
        let c = unsafe { raw::sumacadze_read(file.as_ptr(), file.len()) };
        Answer::of(c.number, c.position).ok()?;
        Ok(Match {
            file,
            size: c.size,
            warriors: c.warriors,
        })
    }

    /// A warrior, from 0 on; a number not below `warriors` is `Malformed(0)`.
    pub fn warrior(&self, number: usize) -> Result<Warrior<'a>, Answer> {
        // SAFETY: a slice is not null.
        let l = unsafe { raw::sumacadze_read_line(self.file.as_ptr(), self.file.len(), number) };
        Answer::of(l.number, l.position).ok()?;
        let part = |start: usize, length: usize| {
            let end = start
                .checked_add(length)
                .expect("a part of the file has an end");
            self.file
                .get(start..end)
                .expect("a part of the file is within the file")
        };
        Ok(Warrior {
            name: part(l.name_start, l.name_length),
            body: part(l.body_start, l.body_length),
            origin: l.origin,
            place: l.place,
        })
    }
}
