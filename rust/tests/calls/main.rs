//! The safe calls: numbers, refusals that change nothing, placing and starting, a match in one call, parts of a file, and
//! memory that comes as pointers.
mod machine;
mod matches;
mod placing;

use sumacadze::{Answer, Header, Machine, Rules};

/// MOV.I $0, $1.
const IMP: [u8; 12] = [1, 6, 1, 1, 0, 0, 0, 0, 1, 0, 0, 0];
/// DAT.F $0, $0.
const DAT: [u8; 12] = [0, 4, 1, 1, 0, 0, 0, 0, 0, 0, 0, 0];
/// SPL.B $0, $0.
const SPLIT: [u8; 12] = [15, 1, 1, 1, 0, 0, 0, 0, 0, 0, 0, 0];

/// Eight cells, and as many entries as a process limit of 4 needs.
fn memories() -> (Vec<u64>, Vec<u64>) {
    (vec![7; 8], vec![7; 64])
}

/// The rules of eight cells in which each name may hold 4 entries.
fn rules() -> Rules {
    Rules::of_size(8, 4)
}

/// The whole record of a machine.
fn record(m: &Machine) -> (Header, Vec<u64>, Vec<u64>) {
    (*m.header(), m.core().to_vec(), m.queue().to_vec())
}

/// Places a body and starts a process at its first instruction: the answer of the start.
fn place_and_start(m: &mut Machine, name: &[u8], body: &[u8], place: u32) -> Answer {
    assert_eq!(m.place(name, body, place).answer, Answer::Done);
    m.start(name, place).answer
}
