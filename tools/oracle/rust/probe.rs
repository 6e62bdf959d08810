//! Looks at the private state of a core, and gives a call's result as number and value of the table in docs/MACHINE.md.
//! It stands below process.rs, from where the fields of the core and of its queue are both in sight.

use std::collections::{BTreeMap, VecDeque};

use super::super::{Core, Error as LoadError};
use super::{Entry, Error};
use crate::load_file::{Instruction, Warrior};

fn told(result: Result<(), Error>) -> (u32, u32) {
    match result {
        Ok(()) => (0, 0),
        Err(Error::NoRemainingProcesses) => (7, 0),
        Err(Error::ExecuteDat(place)) => (11, place.value()),
        Err(Error::DivideByZero) => (12, 0),
        Err(other) => panic!("no number for {other:?}"),
    }
}

impl Core {
    pub fn told_load(&mut self, warrior: &Warrior) -> (u32, u32) {
        match self.load_warrior(warrior) {
            Ok(()) => (0, 0),
            Err(LoadError::WarriorTooLong) => (3, 0),
            Err(other) => panic!("no number for {other:?}"),
        }
    }

    pub fn told_step(&mut self) -> (u32, u32) {
        told(self.step())
    }

    pub fn told_run(&mut self, ceiling: Option<usize>) -> (u32, u32) {
        told(self.run(ceiling))
    }

    pub fn cells(&self) -> &[Instruction] {
        &self.instructions
    }

    pub fn queued(&self) -> &VecDeque<Entry> {
        &self.process_queue.queue
    }

    pub fn counts(&self) -> &BTreeMap<String, usize> {
        &self.process_queue.processes
    }

    pub fn next_threads(&self) -> &BTreeMap<String, usize> {
        &self.process_queue.next_thread_id
    }
}
