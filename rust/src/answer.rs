//! What a call gives back: the table of docs/MACHINE.md.

/// An answer, with the value that is given with it.
#[derive(Clone, Copy, Debug, PartialEq, Eq)]
pub enum Answer {
    Done,
    InvalidCoreSize,
    /// A memory's length, or a process limit out of its range or too large for the queue memory.
    InvalidMemory,
    WarriorTooLong,
    /// The lowest index of a faulty instruction.
    InvalidCode(usize),
    InvalidNameOrPlace,
    /// A seventeenth name, or a start under one that holds as many entries as the process limit allows.
    NoRoom,
    NoRemainingProcesses,
    NumbersExhausted,
    UnsoundRecord,
    PrivateMemory,
    /// The place of the DAT.
    ExecuteDat(usize),
    DivideByZero,
    /// The position of the fault in the file.
    Malformed(usize),
    /// The read or the write limit.
    InvalidLimit,
}

impl Answer {
    /// The answer of a number and its value. A number that the table does not have is not this library's: it panics.
    pub(crate) fn of(number: u8, value: usize) -> Answer {
        match number {
            0 => Answer::Done,
            1 => Answer::InvalidCoreSize,
            2 => Answer::InvalidMemory,
            3 => Answer::WarriorTooLong,
            4 => Answer::InvalidCode(value),
            5 => Answer::InvalidNameOrPlace,
            6 => Answer::NoRoom,
            7 => Answer::NoRemainingProcesses,
            8 => Answer::NumbersExhausted,
            9 => Answer::UnsoundRecord,
            10 => Answer::PrivateMemory,
            11 => Answer::ExecuteDat(value),
            12 => Answer::DivideByZero,
            13 => Answer::Malformed(value),
            14 => Answer::InvalidLimit,
            _ => panic!("the library that is linked gave the number {number}"),
        }
    }

    /// Its number in that table.
    pub fn number(self) -> u8 {
        match self {
            Answer::Done => 0,
            Answer::InvalidCoreSize => 1,
            Answer::InvalidMemory => 2,
            Answer::WarriorTooLong => 3,
            Answer::InvalidCode(_) => 4,
            Answer::InvalidNameOrPlace => 5,
            Answer::NoRoom => 6,
            Answer::NoRemainingProcesses => 7,
            Answer::NumbersExhausted => 8,
            Answer::UnsoundRecord => 9,
            Answer::PrivateMemory => 10,
            Answer::ExecuteDat(_) => 11,
            Answer::DivideByZero => 12,
            Answer::Malformed(_) => 13,
            Answer::InvalidLimit => 14,
        }
    }

    /// Ok for Done, else the answer as an error.
    pub fn ok(self) -> Result<(), Answer> {
        match self {
            Answer::Done => Ok(()),
            other => Err(other),
        }
    }
}
