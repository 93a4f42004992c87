//! A reader of AuDaLa program text, after 02 §1 and §2, 000 section 3 and
//! 01's "Blocks" and "Program stream". `READINGS.md` says how the points that
//! the papers leave open are read.
#![forbid(unsafe_code)]

mod blocks;
mod expression;
pub mod generate;
mod grammar;
mod limits;
mod names;
mod syntax;
mod token;
mod write;

use limits::PROGRAM_BYTES;
use syntax::Binary;

/// What a reading tells: 0 and the blocks written, or the refusal's number
/// and zero blocks.
#[derive(Clone, Copy, PartialEq, Eq, Debug)]
pub struct Answer {
    pub number: u16,
    pub blocks: usize,
}

#[derive(Clone, Copy, PartialEq, Eq, Debug)]
#[repr(u16)]
enum Refusal {
    /// "an output shorter than their largest image gives 13" (02 §1)
    Room = 13,
    /// "text over 65,536 bytes, an unclosed comment, or a character sequence
    /// that is no token" (02 §1)
    Token = 15,
    /// "no derivation" (02 §1)
    Derivation = 16,
    /// Names, literals, arguments and counts (02 §1).
    Name = 17,
}

/// Reads program text in which "each binary expression stands in brackets"
/// (02 §1) and writes its image at the front of `out`; later bytes, and all
/// of `out` after a refusal, are untouched.
pub fn read(text: &[u8], out: &mut [u8]) -> Answer {
    answer(text, out, Binary::Bracketed)
}

/// As `read`, where "binary expressions may now stand bare" (02 §2).
pub fn read_bare(text: &[u8], out: &mut [u8]) -> Answer {
    answer(text, out, Binary::Bare)
}

fn answer(text: &[u8], out: &mut [u8], binary: Binary) -> Answer {
    match accept(text, out.len(), binary) {
        Ok(stream) => Answer { number: 0, blocks: blocks::write(&stream, out) },
        Err(refusal) => Answer { number: refusal as u16, blocks: 0 },
    }
}

/// The stream of a text: 15, 16 and 17 are "checked in that order, before 1"
/// (02 §1), so before 13 as well, which 01 puts after 1.
fn accept(text: &[u8], room: usize, binary: Binary) -> Result<Vec<u8>, Refusal> {
    let tokens = token::scan(text).ok_or(Refusal::Token)?;
    let tree = grammar::parse(&tokens, binary).ok_or(Refusal::Derivation)?;
    let stream = write::stream(text, &tokens, &tree).ok_or(Refusal::Name)?;
    if room < PROGRAM_BYTES {
        return Err(Refusal::Room);
    }
    Ok(stream)
}
