//! The machine on memory that the caller owns.
use crate::{raw, Answer};
use std::fmt;

/// What a fresh machine is given and no call changes: the core's size; how far a process reads and writes from its own
/// place; and the process limit P, how many entries of the queue each name may hold. The read and the write limit each divide
/// the size; a machine without them has the size for both ([`Rules::of_size`]). P is 1 to 4,095, and the queue memory has
/// 16 times P entries or more, so that there is room for sixteen names with P entries each.
#[repr(C)]
#[derive(Clone, Copy, Debug, PartialEq, Eq)]
pub struct Rules {
    pub size: u32,
    pub read: u32,
    pub write: u32,
    /// P.
    pub processes: u32,
}

impl Rules {
    /// The rules of a core of that size and a process limit, without a read and a write limit.
    pub fn of_size(size: u32, processes: u32) -> Rules {
        Rules {
            size,
            read: size,
            write: size,
            processes,
        }
    }
}

/// Where the ring of queued processes begins, and how many entries it has.
#[repr(C)]
#[derive(Clone, Copy, Debug, PartialEq, Eq)]
pub struct Ring {
    pub head: u32,
    pub length: u32,
}

/// The names held, in the order in which they were registered: 16 slots of 32 bytes and a length each.
#[repr(C)]
#[derive(Clone, Copy, Debug, PartialEq, Eq)]
pub struct Roster {
    pub held: u32,
    pub bytes: [u8; 512],
    pub lengths: [u8; 16],
}

/// The record that the machine keeps beside its two memories. It may hold anything: a call on an unsound one is refused.
#[repr(C)]
#[derive(Clone, Copy, Debug, PartialEq, Eq)]
pub struct Header {
    pub rules: Rules,
    pub ring: Ring,
    pub steps: u32,
    pub names: Roster,
    pub counts: [u32; 16],
    pub threads: [u32; 16],
}

/// An answer, and the writes and steps of a call.
#[derive(Clone, Copy, Debug, PartialEq, Eq)]
pub struct Report {
    pub answer: Answer,
    pub writes: u64,
    pub steps: u64,
}

/// The report of a match loaded in one call, and the number, from 0, of the warrior that was refused, else 0.
#[derive(Clone, Copy, Debug, PartialEq, Eq)]
pub struct Loads {
    pub report: Report,
    pub warrior: usize,
}

/// An instruction of the core, in the numbers of docs/MACHINE.md.
#[derive(Clone, Copy, Debug, PartialEq, Eq)]
pub struct Cell {
    pub opcode: u8,
    pub modifier: u8,
    pub a_mode: u8,
    pub b_mode: u8,
    pub a: u32,
    pub b: u32,
}

/// Why memory that comes as pointers is not taken.
#[derive(Clone, Copy, Debug, PartialEq, Eq)]
pub enum NotLent {
    Null,
    Misaligned,
    TooLong,
    Overlapping,
}

impl fmt::Display for NotLent {
    fn fmt(&self, to: &mut fmt::Formatter<'_>) -> fmt::Result {
        to.write_str(match self {
            NotLent::Null => "a pointer is null",
            NotLent::Misaligned => "a pointer is not aligned to 8 bytes",
            NotLent::TooLong => "a memory is longer than can be addressed",
            NotLent::Overlapping => "the two memories overlap",
        })
    }
}

impl std::error::Error for NotLent {}

/// A machine: two memories that are lent to it, and its header.
pub struct Machine<'a> {
    core: &'a mut [u64],
    queue: &'a mut [u64],
    header: Header,
}

fn report(r: raw::Report) -> Report {
    Report {
        answer: Answer::of(r.number, r.value),
        writes: r.writes,
        steps: r.steps,
    }
}

/// The addresses of a memory, or why they cannot be one.
fn span(pointer: *mut u64, length: usize) -> Result<(usize, usize), NotLent> {
    if pointer.is_null() {
        return Err(NotLent::Null);
    }
    if !pointer.is_aligned() {
        return Err(NotLent::Misaligned);
    }
    let bytes = length
        .checked_mul(8)
        .filter(|n| *n <= isize::MAX as usize)
        .ok_or(NotLent::TooLong)?;
    let end = pointer.addr().checked_add(bytes).ok_or(NotLent::TooLong)?;
    Ok((pointer.addr(), end))
}

impl<'a> Machine<'a> {
    /// A fresh machine: fresh cells, zeros in the queue memory, which has 1 to 65,535 entries.
    pub fn fresh(
        rules: Rules,
        core: &'a mut [u64],
        queue: &'a mut [u64],
    ) -> Result<Machine<'a>, Answer> {
        // SAFETY: both are exclusive slices, so neither is null, and they do not overlap.
        let f = unsafe {
            raw::sumacadze_fresh(
                rules,
                core.as_mut_ptr(),
                core.len(),
                queue.as_mut_ptr(),
                queue.len(),
            )
        };
        Answer::of(f.number, 0).ok()?;
        Ok(Machine {
            core,
            queue,
            header: f.header,
        })
    }

    /// A machine from its parts, whatever they hold.
    pub fn from_parts(core: &'a mut [u64], queue: &'a mut [u64], header: Header) -> Machine<'a> {
        Machine {
            core,
            queue,
            header,
        }
    }

    /// A machine from memory that comes as pointers, as from C. Null, misaligned, too long and overlapping memory is refused.
    ///
    /// # Safety
    /// For `'a` each pointer is valid for reads and writes of so many initialised elements, and nothing else uses them.
    pub unsafe fn from_raw_parts(
        core: *mut u64,
        core_length: usize,
        queue: *mut u64,
        queue_length: usize,
        header: Header,
    ) -> Result<Machine<'a>, NotLent> {
        let one = span(core, core_length)?;
        let other = span(queue, queue_length)?;
        if one.0 < other.1 && other.0 < one.1 {
            return Err(NotLent::Overlapping);
        }
        // SAFETY: not null, aligned, of a length that can be, and apart, as tested; the rest is the caller's.
        let (core, queue) = unsafe {
            (
                std::slice::from_raw_parts_mut(core, core_length),
                std::slice::from_raw_parts_mut(queue, queue_length),
            )
        };
        Ok(Machine {
            core,
            queue,
            header,
        })
    }

    /// Places a body under a name, from a place on, going on at cell 0 past the end. A name that is not held yet is registered,
    /// by an empty body too; an empty name is Warrior0. Nothing is started: a name that is never started runs nothing. A name
    /// that holds P entries may be placed under. The writes are the instructions of the body. The refusals, in the order
    /// tested: `UnsoundRecord`, `WarriorTooLong`, `InvalidCode`, `InvalidNameOrPlace`, `NoRoom` (a seventeenth name).
    ///
    /// ```
    /// use sumacadze::{Answer, Machine, Rules};
    ///
    /// // MOV $0, $1, with the default modifier.
    /// const IMP: [u8; 12] = [1, 255, 1, 1, 0, 0, 0, 0, 1, 0, 0, 0];
    ///
    /// let (mut core, mut queue) = (vec![0; 40], vec![0; 64]);
    /// let mut machine = Machine::fresh(Rules::of_size(40, 4), &mut core, &mut queue).unwrap();
    /// assert_eq!(machine.place(b"Imp", &IMP, 20).answer, Answer::Done);
    /// assert_eq!(machine.names().next(), Some((&b"Imp"[..], 0)));
    /// assert_eq!(machine.start(b"Imp", 20).answer, Answer::Done);
    /// assert_eq!(machine.run(Some(12)).steps, 12);
    /// assert_eq!(machine.names().next(), Some((&b"Imp"[..], 1)));
    /// ```
    pub fn place(&mut self, name: &[u8], body: &[u8], place: u32) -> Report {
        // SAFETY: the memories and the header are exclusive here, and no slice is null.
        report(unsafe {
            raw::sumacadze_place(
                self.core.as_mut_ptr(),
                self.core.len(),
                self.queue.as_ptr(),
                self.queue.len(),
                &mut self.header,
                name.as_ptr(),
                name.len(),
                body.as_ptr(),
                body.len(),
                place,
            )
        })
    }

    /// Starts a process under a name at any place of the core, whatever stands there. A name that is not held yet is
    /// registered; an empty name is Warrior0. No cell is written: the writes are 0. The refusals, in the order tested:
    /// `UnsoundRecord`, `InvalidNameOrPlace`, `NoRoom` (a seventeenth name, or one that holds P entries), `NumbersExhausted`
    /// (a name whose thread numbers are used up).
    pub fn start(&mut self, name: &[u8], place: u32) -> Report {
        // SAFETY: as for place.
        report(unsafe {
            raw::sumacadze_start(
                self.core.as_ptr(),
                self.core.len(),
                self.queue.as_mut_ptr(),
                self.queue.len(),
                &mut self.header,
                name.as_ptr(),
                name.len(),
                place,
            )
        })
    }

    /// Loads every warrior of a match file in file order, up to the first refused: each is placed, and then started at its
    /// place plus its origin, modulo the core's size, before the next is placed. What was placed and started before a refusal
    /// stands, with its writes; so does the body of the refused warrior where it was placed and could not be started.
    pub fn load_match(&mut self, file: &[u8]) -> Loads {
        // SAFETY: the memories are exclusive here, and no slice is null.
        let l = unsafe {
            raw::sumacadze_load_match(
                self.core.as_mut_ptr(),
                self.core.len(),
                self.queue.as_mut_ptr(),
                self.queue.len(),
                self.header,
                file.as_ptr(),
                file.len(),
            )
        };
        self.header = l.header;
        Loads {
            report: report(l.report),
            warrior: l.warrior,
        }
    }

    /// Executes one instruction of the process at the front. SPL's child is dropped if its name held P entries before the step.
    pub fn step(&mut self) -> Report {
        // SAFETY: as for place.
        report(unsafe {
            raw::sumacadze_step(
                self.core.as_mut_ptr(),
                self.core.len(),
                self.queue.as_mut_ptr(),
                self.queue.len(),
                &mut self.header,
            )
        })
    }

    /// Steps while steps taken are below the ceiling (none: 10,000), up to the first answer that is not Done.
    pub fn run(&mut self, ceiling: Option<u64>) -> Report {
        // SAFETY: as for place.
        report(unsafe {
            raw::sumacadze_run(
                self.core.as_mut_ptr(),
                self.core.len(),
                self.queue.as_mut_ptr(),
                self.queue.len(),
                &mut self.header,
                ceiling.is_some(),
                ceiling.unwrap_or(0),
            )
        })
    }

    /// The cell at any number, reduced.
    pub fn get(&self, number: i32) -> Result<Cell, Answer> {
        // SAFETY: no slice is null.
        let r = unsafe {
            raw::sumacadze_get(
                self.core.as_ptr(),
                self.core.len(),
                self.queue.as_ptr(),
                self.queue.len(),
                self.header,
                number,
            )
        };
        Answer::of(r.number, 0).ok()?;
        Ok(Cell {
            opcode: r.opcode,
            modifier: r.modifier,
            a_mode: r.a_mode,
            b_mode: r.b_mode,
            a: r.a,
            b: r.b,
        })
    }

    /// Each name that is held and its number of processes, in the order in which they were registered. An unsound header's are cut to what there is room for.
    pub fn names(&self) -> impl Iterator<Item = (&[u8], u32)> {
        let held = (self.header.names.held as usize).min(16);
        let slots = self
            .header
            .names
            .bytes
            .chunks_exact(32)
            .zip(self.header.names.lengths)
            .zip(self.header.counts);
        slots
            .take(held)
            .map(|((bytes, length), count)| (&bytes[..usize::from(length).min(32)], count))
    }

    pub fn header(&self) -> &Header {
        &self.header
    }

    pub fn core(&self) -> &[u64] {
        self.core
    }

    pub fn queue(&self) -> &[u64] {
        self.queue
    }
}
