//! The machine's numbers (docs/MACHINE.md) for opcodes, modifiers and modes, its words of a cell and of a queue entry, and a digest of words.

use oracle::load_file::{AddressMode, Instruction, Modifier, Opcode};

#[rustfmt::skip]
pub const OPCODES: [Opcode; 19] = [
    Opcode::Dat, Opcode::Mov, Opcode::Add, Opcode::Sub, Opcode::Mul, Opcode::Div, Opcode::Mod,
    Opcode::Jmp, Opcode::Jmz, Opcode::Jmn, Opcode::Djn, Opcode::Cmp, Opcode::Seq, Opcode::Sne,
    Opcode::Slt, Opcode::Spl, Opcode::Nop, Opcode::Ldp, Opcode::Stp,
];

#[rustfmt::skip]
pub const MODIFIERS: [Modifier; 7] = [
    Modifier::A, Modifier::B, Modifier::AB, Modifier::BA, Modifier::F, Modifier::X, Modifier::I,
];

#[rustfmt::skip]
pub const MODES: [AddressMode; 8] = [
    AddressMode::Immediate, AddressMode::Direct, AddressMode::IndirectA, AddressMode::IndirectB,
    AddressMode::PreDecIndirectA, AddressMode::PreDecIndirectB,
    AddressMode::PostIncIndirectA, AddressMode::PostIncIndirectB,
];

fn code<T: PartialEq>(all: &[T], one: &T) -> u64 {
    all.iter().position(|x| x == one).expect("a listed code") as u64
}

/// B number in bits 0 to 15, A number 16 to 31, B mode 32 to 34, A mode 35 to 37, modifier 38 to 40, opcode 41 to 45.
pub fn word(cell: &Instruction) -> u64 {
    cell.b_field.unwrap_value() as u64
        | (cell.a_field.unwrap_value() as u64) << 16
        | code(&MODES, &cell.b_field.address_mode) << 32
        | code(&MODES, &cell.a_field.address_mode) << 35
        | code(&MODIFIERS, &cell.modifier) << 38
        | code(&OPCODES, &cell.opcode) << 41
}

/// A queue entry: place in bits 0 to 15, thread number 16 to 47, name index 48 to 51.
pub fn entry(place: u32, thread: usize, name: usize) -> u64 {
    u64::from(place) | (thread as u64) << 16 | (name as u64) << 48
}

/// From 0, by each word's low and then its high 32 bits: times 65,599, plus these, modulo 4,294,967,291.
pub fn digest(words: &[u64]) -> u64 {
    let halves = words.iter().flat_map(|w| [w & 0xffff_ffff, w >> 32]);
    halves.fold(0, |d, half| (d * 65_599 + half) % 4_294_967_291)
}
