//! What the static library exports, as include/sumacadze.h declares it.
use crate::{Header, Roster, Rules};
use std::mem::{offset_of, size_of};

#[repr(C)]
pub struct Report {
    pub number: u8,
    pub value: usize,
    pub writes: u64,
    pub steps: u64,
}

#[repr(C)]
pub struct Fresh {
    pub number: u8,
    pub header: Header,
}

#[repr(C)]
pub struct Loads {
    pub report: Report,
    pub warrior: usize,
    pub header: Header,
}

#[repr(C)]
pub struct Reading {
    pub number: u8,
    pub opcode: u8,
    pub modifier: u8,
    pub a_mode: u8,
    pub b_mode: u8,
    pub a: u32,
    pub b: u32,
}

#[repr(C)]
pub struct Contents {
    pub number: u8,
    pub position: usize,
    pub warriors: usize,
    pub size: u32,
}

#[repr(C)]
pub struct Line {
    pub number: u8,
    pub position: usize,
    pub name_start: usize,
    pub name_length: usize,
    pub body_start: usize,
    pub body_length: usize,
    pub origin: u16,
    pub place: u32,
}

// The layout that the library has.
const _: () = assert!(size_of::<Rules>() == 16 && offset_of!(Rules, read) == 4);
const _: () = assert!(offset_of!(Rules, write) == 8 && offset_of!(Rules, processes) == 12);
const _: () = assert!(size_of::<Header>() == 688 && offset_of!(Header, ring) == 16);
const _: () = assert!(offset_of!(Header, steps) == 24 && offset_of!(Header, names) == 28);
const _: () = assert!(offset_of!(Roster, bytes) == 4 && offset_of!(Roster, lengths) == 516);
const _: () = assert!(offset_of!(Header, counts) == 560 && offset_of!(Header, threads) == 624);
const _: () = assert!(size_of::<Fresh>() == 692 && offset_of!(Fresh, header) == 4);
const _: () = assert!(size_of::<Report>() == 32 && size_of::<Reading>() == 16);
const _: () = assert!(size_of::<Loads>() == 728 && offset_of!(Loads, warrior) == 32);
const _: () = assert!(offset_of!(Loads, header) == 40);
const _: () = assert!(size_of::<Contents>() == 32 && size_of::<Line>() == 56);

extern "C" {
    pub fn sumacadze_fresh(
        rules: Rules,
        core: *mut u64,
        core_length: usize,
        queue: *mut u64,
        queue_length: usize,
    ) -> Fresh;
    #[allow(clippy::too_many_arguments)]
    pub fn sumacadze_place(
        core: *mut u64,
        core_length: usize,
        queue: *const u64,
        queue_length: usize,
        header: *mut Header,
        name: *const u8,
        name_length: usize,
        body: *const u8,
        body_length: usize,
        place: u32,
    ) -> Report;
    #[allow(clippy::too_many_arguments)]
    pub fn sumacadze_start(
        core: *const u64,
        core_length: usize,
        queue: *mut u64,
        queue_length: usize,
        header: *mut Header,
        name: *const u8,
        name_length: usize,
        place: u32,
    ) -> Report;
    pub fn sumacadze_load_match(
        core: *mut u64,
        core_length: usize,
        queue: *mut u64,
        queue_length: usize,
        header: Header,
        file: *const u8,
        file_length: usize,
    ) -> Loads;
    pub fn sumacadze_step(
        core: *mut u64,
        core_length: usize,
        queue: *mut u64,
        queue_length: usize,
        header: *mut Header,
    ) -> Report;
    pub fn sumacadze_run(
        core: *mut u64,
        core_length: usize,
        queue: *mut u64,
        queue_length: usize,
        header: *mut Header,
        said: bool,
        ceiling: u64,
    ) -> Report;
    pub fn sumacadze_get(
        core: *const u64,
        core_length: usize,
        queue: *const u64,
        queue_length: usize,
        header: Header,
        number: i32,
    ) -> Reading;
    pub fn sumacadze_read(file: *const u8, file_length: usize) -> Contents;
    pub fn sumacadze_read_line(file: *const u8, file_length: usize, warrior: usize) -> Line;
}
