//! Cases to compare engines by: their format, and the line that answers one.
//! The format stands in docs/CASES.md.

use crate::coding::coded;
use engine::{Command, check, run};
use std::io::{self, Read};
use text::read_bare;

pub const OUTPUT_FILL: u8 = 0xA5;

pub const MOST_PLACES: usize = 1_100;
pub const MOST_OUTPUT: usize = 9_216;
pub const MOST_PROGRAM: usize = 33_792;
pub const MOST_TABLE: usize = 9_728;
pub const MOST_TURNS: usize = 65_600;
pub const MOST_IMAGE: usize = 33_792;
pub const MOST_TEXT: usize = 66_000;

#[derive(Clone, Debug, PartialEq, Eq)]
pub enum Case {
    Check { places: usize, program: Vec<u8> },
    Run { places: usize, output: usize, program: Vec<u8>, table: Vec<u8>, turns: Vec<u8> },
    Text { output: usize, text: Vec<u8> },
}

impl Case {
    /// Adds the case to a file's bytes.
    pub fn write(&self, file: &mut Vec<u8>) {
        match self {
            Case::Check { places, program } => {
                file.push(1);
                put_number(file, *places);
                put_bytes(file, program);
            }
            Case::Run { places, output, program, table, turns } => {
                file.push(2);
                put_number(file, *places);
                put_number(file, *output);
                put_bytes(file, program);
                put_bytes(file, table);
                put_bytes(file, turns);
            }
            Case::Text { output, text } => {
                file.push(3);
                put_number(file, *output);
                put_bytes(file, text);
            }
        }
    }

    /// Reads the next case; none at the end of the file.
    pub fn read(file: &mut impl Read) -> io::Result<Option<Case>> {
        let mut kind = [0];
        if file.read(&mut kind)? == 0 {
            return Ok(None);
        }
        match kind[0] {
            1 => Ok(Some(Case::Check {
                places: take_number(file, MOST_PLACES)?,
                program: take_bytes(file, MOST_PROGRAM)?,
            })),
            2 => Ok(Some(Case::Run {
                places: take_number(file, MOST_PLACES)?,
                output: take_number(file, MOST_OUTPUT)?,
                program: take_bytes(file, MOST_PROGRAM)?,
                table: take_bytes(file, MOST_TABLE)?,
                turns: take_bytes(file, MOST_TURNS)?,
            })),
            3 => Ok(Some(Case::Text {
                output: take_number(file, MOST_IMAGE)?,
                text: take_bytes(file, MOST_TEXT)?,
            })),
            _ => Err(io::Error::other("a case is of kind 1, 2 or 3")),
        }
    }

    /// The line that answers the case.
    pub fn answer(&self) -> String {
        match self {
            Case::Check { places, program } => check_line(*places, program),
            Case::Run { places, output, program, table, turns } => {
                run_line(*places, *output, program, table, turns)
            }
            Case::Text { output, text } => text_line(*output, text),
        }
    }
}

fn check_line(places: usize, program: &[u8]) -> String {
    let mut list = vec![None; places];
    let answer = check(program, &mut list);
    format!(
        "check {} {} {} {} {} {}",
        answer.number,
        answer.structs,
        answer.steps,
        answer.commands,
        answer.depth,
        list_digest(&list)
    )
}

fn run_line(places: usize, output: usize, program: &[u8], table: &[u8], turns: &[u8]) -> String {
    let mut list = vec![None; places];
    let mut output = vec![OUTPUT_FILL; output];
    let answer = run(program, table, turns, &mut output, &mut list);
    format!(
        "run {} {} {} {} {} {} {}",
        answer.number,
        answer.turns,
        answer.blocks,
        answer.depth,
        digest(output.iter().copied()),
        list_digest(&list),
        answer.holding
    )
}

fn text_line(output: usize, text: &[u8]) -> String {
    let mut output = vec![OUTPUT_FILL; output];
    let answer = read_bare(text, &mut output);
    format!("text {} {} {}", answer.number, answer.blocks, digest(output.iter().copied()))
}

pub fn list_digest(list: &[Option<Command>]) -> u64 {
    digest(list.iter().flat_map(|place| coded(*place).to_le_bytes()))
}

/// h := (h × 65599 + byte + 1) mod 4294967291, from 0.
pub fn digest(bytes: impl Iterator<Item = u8>) -> u64 {
    bytes.fold(0, |h, byte| (h * 65_599 + u64::from(byte) + 1) % 4_294_967_291)
}

pub(crate) fn put_number(file: &mut Vec<u8>, number: usize) {
    file.extend_from_slice(&(number as u32).to_le_bytes());
}

pub(crate) fn put_bytes(file: &mut Vec<u8>, bytes: &[u8]) {
    put_number(file, bytes.len());
    file.extend_from_slice(bytes);
}

pub(crate) fn take_number(file: &mut impl Read, most: usize) -> io::Result<usize> {
    let mut bytes = [0; 4];
    file.read_exact(&mut bytes)?;
    match usize::try_from(u32::from_le_bytes(bytes)) {
        Ok(number) if number <= most => Ok(number),
        _ => Err(io::Error::other("a number of a case is over its bound")),
    }
}

pub(crate) fn take_bytes(file: &mut impl Read, most: usize) -> io::Result<Vec<u8>> {
    let mut bytes = vec![0; take_number(file, most)?];
    file.read_exact(&mut bytes)?;
    Ok(bytes)
}
