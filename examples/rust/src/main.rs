//! Plays a match file with the library, as `play` does: play [FILE], or standard input.
//! It prints answer, steps and writes of the run, then each name and its count; a refusal gives one line.
use std::env;
use std::fs::File;
use std::io::{self, Read, Write};
use sumacadze::{Answer, Machine, Match, Rules};

const LARGEST_FILE: usize = 32768;
const LARGEST_SIZE: u32 = 8000;
/// Each of the sixteen names that a match may have holds at most 125 of the 2,000 entries.
const PROCESSES: u32 = 125;
const QUEUE: usize = 2000;

/// Plays a file: gives what is to be printed, or why it is refused.
fn play(file: &[u8]) -> Result<Vec<u8>, Answer> {
    if file.len() > LARGEST_FILE {
        return Err(Answer::Malformed(LARGEST_FILE));
    }
    let game = Match::read(file)?;
    if game.size > LARGEST_SIZE {
        return Err(Answer::InvalidCoreSize);
    }
    let mut core = vec![0; game.size as usize];
    let mut queue = vec![0; QUEUE];
    let rules = Rules::of_size(game.size, PROCESSES);
    let mut machine = Machine::fresh(rules, &mut core, &mut queue)?;
    machine.load_match(file).report.answer.ok()?;
    let run = machine.run(None);
    let mut text = format!("{} {} {}\n", run.answer.number(), run.steps, run.writes).into_bytes();
    for (name, count) in machine.names() {
        text.extend_from_slice(name);
        text.extend_from_slice(format!(" {count}\n").as_bytes());
    }
    Ok(text)
}

fn main() -> io::Result<()> {
    let mut file = Vec::new();
    let input: Box<dyn Read> = match env::args_os().nth(1) {
        Some(path) => Box::new(File::open(path)?),
        None => Box::new(io::stdin()),
    };
    input.take(LARGEST_FILE as u64 + 1).read_to_end(&mut file)?;
    let text = match play(&file) {
        Ok(text) => text,
        Err(Answer::Malformed(position)) => format!("13 {position}\n").into_bytes(),
        Err(answer) => format!("{}\n", answer.number()).into_bytes(),
    };
    io::stdout().write_all(&text)
}
