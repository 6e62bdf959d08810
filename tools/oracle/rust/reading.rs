//! Reads the calls of a battle (README.md has the format).

use std::error::Error;
use std::str::FromStr;

use oracle::load_file::{Field, Instruction, Value};
use oracle::Warrior;

use crate::words::{MODES, MODIFIERS, OPCODES};

pub type Failure = Box<dyn Error>;

pub enum Call {
    Load(Warrior),
    Step,
    Run(Option<usize>),
}

fn at<T: Copy>(all: &[T], text: &str) -> Result<T, Failure> {
    let found = all.get(text.parse::<usize>()?);
    Ok(*found.ok_or("a code out of range")?)
}

// `-` for none
fn optional<T: FromStr>(text: &str) -> Result<Option<T>, T::Err> {
    match text {
        "-" => Ok(None),
        _ => text.parse().map(Some),
    }
}

fn field(mode: &str, number: &str) -> Result<Field, Failure> {
    let address_mode = at(&MODES, mode)?;
    let value = Value::Literal(number.parse()?);
    Ok(Field { address_mode, value })
}

// modifier 255: the default of the given sources
fn instruction(text: &str) -> Result<Instruction, Failure> {
    let parts: Vec<&str> = text.split('.').collect();
    let [opcode, modifier, a_mode, b_mode, a, b] = parts[..] else {
        return Err("an instruction has six numbers".into());
    };
    let opcode = at(&OPCODES, opcode)?;
    let a_field = field(a_mode, a)?;
    let b_field = field(b_mode, b)?;
    if modifier == "255" {
        return Ok(Instruction::new(opcode, a_field, b_field));
    }
    let modifier = at(&MODIFIERS, modifier)?;
    Ok(Instruction { opcode, modifier, a_field, b_field })
}

fn warrior(name: &str, origin: &str, body: &[&str]) -> Result<Warrior, Failure> {
    let name = name.strip_prefix('=').ok_or("a name begins with =")?;
    let mut made = Warrior::default();
    made.metadata.name = (!name.is_empty()).then(|| name.into());
    made.program.origin = optional(origin)?;
    for text in body {
        made.program.instructions.push(instruction(text)?);
    }
    Ok(made)
}

pub fn call(words: &[&str]) -> Result<Call, Failure> {
    match words {
        ["load", name, origin, body @ ..] => Ok(Call::Load(warrior(name, origin, body)?)),
        ["step"] => Ok(Call::Step),
        ["run", ceiling] => Ok(Call::Run(optional(ceiling)?)),
        _ => Err(format!("no call: {}", words.join(" ")).into()),
    }
}
