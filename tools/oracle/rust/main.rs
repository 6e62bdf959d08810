//! The oracle: plays battles on the given sources and writes what each call left (README.md has both formats).

mod reading;
mod words;

use std::any::Any;
use std::fs::File;
use std::io::{self, BufRead, BufWriter, Write};
use std::os::fd::{AsFd, FromRawFd, OwnedFd};
use std::panic::{catch_unwind, set_hook, AssertUnwindSafe};

use oracle::core::Core;

use reading::{call, Call, Failure};
use words::{digest, entry, word};

// A panic's message as one word.
fn reason(panic: &(dyn Any + Send)) -> String {
    let text = match panic.downcast_ref::<&str>() {
        Some(text) => (*text).to_string(),
        None => panic.downcast_ref::<String>().cloned().unwrap_or_default(),
    };
    let words: Vec<&str> = text.split_whitespace().collect();
    format!("panic:{}", words.join("-"))
}

// How much is written of what a call left.
#[derive(Clone, Copy, PartialEq)]
enum Form {
    Brief,
    Long,
    Whole,
}

// The state in numbers alone; `names` are those by first accepted load.
fn brief(core: &Core, names: &[String], out: &mut impl Write) -> io::Result<()> {
    let index = |name: &String| names.iter().position(|n| n == name).expect("a loaded name");
    let queue: Vec<u64> = core.queued().iter().map(|e| entry(e.offset.value(), e.thread, index(&e.name))).collect();
    let cells: Vec<u64> = core.cells().iter().map(word).collect();
    write!(out, " {} {} {} {}", core.steps_taken(), queue.len(), digest(&queue), digest(&cells))?;
    for name in names {
        write!(out, " {}.{}", core.counts()[name], core.next_threads()[name])?;
    }
    writeln!(out)
}

// The state as it is.
fn state(core: &Core, names: &[String], form: Form, out: &mut impl Write) -> io::Result<()> {
    if form == Form::Brief {
        return brief(core, names, out);
    }
    write!(out, " {} |", core.steps_taken())?;
    for e in core.queued() {
        write!(out, " {}.{}.{}", e.offset.value(), e.thread, e.name)?;
    }
    write!(out, " |")?;
    for name in names {
        let (count, next) = (core.counts()[name], core.next_threads()[name]);
        write!(out, " {count}.{next}.{name}")?;
    }
    let cells: Vec<u64> = core.cells().iter().map(word).collect();
    write!(out, " | {}", digest(&cells))?;
    if form == Form::Whole {
        write!(out, " |")?;
        for cell in &cells {
            write!(out, " {cell:x}")?;
        }
    }
    writeln!(out)
}

// Plays one battle; true where a call panicked, which ends it.
fn battle(line: &str, form: Form, out: &mut impl Write) -> Result<bool, Failure> {
    let words: Vec<&str> = line.split_whitespace().collect();
    let mut calls = words.split(|w| *w == "|");
    let [size] = calls.next().unwrap_or_default() else {
        return Err("a battle begins with the core size".into());
    };
    let mut core = Core::new(size.parse()?)?;
    let mut names: Vec<String> = Vec::new();
    let mark = if form == Form::Brief { "" } else { "> " };
    if form != Form::Brief {
        writeln!(out, "{line}")?;
    }
    for words in calls {
        let answer = catch_unwind(AssertUnwindSafe(|| -> Result<(u32, u32), Failure> {
            Ok(match call(words)? {
                Call::Load(warrior) => core.told_load(&warrior),
                Call::Step => core.told_step(),
                Call::Run(ceiling) => core.told_run(ceiling),
            })
        }));
        let panicked = answer.is_err();
        match answer {
            Ok(answer) => {
                let (number, value) = answer?;
                write!(out, "{mark}{number} {value}")?;
            }
            Err(panic) => write!(out, "{mark}{} 0", reason(&*panic))?,
        }
        // a call brings one new name at most
        let new = core.counts().keys().find(|name| !names.contains(name));
        names.extend(new.cloned());
        state(&core, &names, form, out)?;
        if panicked {
            return Ok(true);
        }
    }
    Ok(false)
}

// A step of the given sources writes a trace to standard error. Descriptor 2 becomes one that is open
// for reading only: a write fails at once, which std passes over. Gives the former one back.
fn silence() -> io::Result<File> {
    let kept = io::stderr().as_fd().try_clone_to_owned()?;
    // SAFETY: nothing else closes descriptor 2; then it is the lowest free one, and the next file opened has it
    drop(unsafe { OwnedFd::from_raw_fd(2) });
    std::mem::forget(File::open("/dev/null")?);
    set_hook(Box::new(|_| {}));
    Ok(File::from(kept))
}

fn main() -> Result<(), Failure> {
    let mut errors = silence()?;
    let options: Vec<String> = std::env::args().skip(1).collect();
    let form = match options.iter().map(String::as_str).collect::<Vec<_>>()[..] {
        [] => Form::Long,
        ["--core"] => Form::Whole,
        ["--brief"] => Form::Brief,
        _ => {
            writeln!(errors, "usage: oracle [--core | --brief] < BATTLES > ANSWERS")?;
            std::process::exit(2);
        }
    };
    let mut out = BufWriter::new(io::stdout().lock());
    let (mut battles, mut panics) = (0, 0);
    for (i, line) in io::stdin().lock().lines().enumerate() {
        match battle(&line?, form, &mut out) {
            Ok(panicked) => panics += u32::from(panicked),
            Err(e) => {
                out.flush()?;
                writeln!(errors, "line {}: {e}", i + 1)?;
                std::process::exit(1);
            }
        }
        battles += 1;
    }
    out.flush()?;
    writeln!(errors, "{battles} battles, {panics} ended by a panic")?;
    Ok(())
}
