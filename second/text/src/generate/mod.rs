//! Random texts and their answers, to hold another reader against: programs
//! written out, the same damaged, and texts at the edges.

mod damage;
mod edge;
mod edges;
mod program;
mod random;
mod render;
mod vocabulary;

use crate::{Answer, read, read_bare};
pub use edges::edges;
use random::Random;
use render::Style;

/// A text and the length of the output that it is to be read into.
pub struct Case {
    pub text: Vec<u8>,
    pub output: usize,
    /// The stream of the program that the text was made from, if it was made
    /// from one and not damaged.
    pub stream: Option<Vec<u8>>,
}

/// The byte that an output is filled with before the call.
const FILLING: u8 = 0xa5;

/// The largest image of a program, in bytes, its stream and a text.
const IMAGE_BYTES: usize = 32_768;
const STREAM_BYTES: usize = 32_256;
const TEXT_BYTES: usize = 65_536;

fn output_length(random: &mut Random) -> usize {
    match random.below(16) {
        0 => IMAGE_BYTES - 1,
        1 => IMAGE_BYTES + random.below(1000),
        2 => random.below(IMAGE_BYTES),
        3 if random.one_in(4) => 0,
        _ => IMAGE_BYTES,
    }
}

/// A program that neither the stream nor the text is too short for.
fn whole_program(random: &mut Random, bare: bool) -> (Vec<u8>, Vec<u8>) {
    loop {
        let budget = if random.one_in(30) { 4000 } else { 5 + random.below(80) };
        let program = program::program(random, bare, budget);
        let style = render::style(random);
        let text = render::render(random, &program.tokens, style);
        if program.stream.len() <= STREAM_BYTES && text.len() <= TEXT_BYTES {
            return (text, program.stream);
        }
    }
}

/// A program with one or some of its tokens, names or bytes damaged.
fn damaged_text(random: &mut Random, bare: bool) -> Vec<u8> {
    let budget = 1 + random.below(30);
    let mut tokens = program::program(random, bare, budget).tokens;
    if !random.one_in(2) {
        damage::tokens(random, &mut tokens);
        let style = if random.one_in(10) { Style::Careless } else { render::style(random) };
        return render::render(random, &tokens, style);
    }
    let style = render::style(random);
    let mut text = render::render(random, &tokens, style);
    damage::bytes(random, &mut text);
    text
}

/// A text at an edge, seldom damaged as well.
fn edge_text(random: &mut Random) -> Vec<u8> {
    if random.one_in(8) {
        return edge::raw(random);
    }
    let mut tokens = edge::tokens(random);
    if random.one_in(12) {
        damage::tokens(random, &mut tokens);
    }
    let style = render::style(random);
    render::render(random, &tokens, style)
}

/// The case of this seed and index; its programs have brackets round every
/// binary expression, or not.
pub fn case(seed: u64, index: u64, bare: bool) -> Case {
    let random = &mut Random::of_case(seed, index);
    let output = output_length(random);
    match random.below(10) {
        0..=3 => {
            let (text, stream) = whole_program(random, bare);
            Case { text, output, stream: Some(stream) }
        }
        4..=7 => Case { text: damaged_text(random, bare), output, stream: None },
        _ => Case { text: edge_text(random), output, stream: None },
    }
}

/// FNV-1a of 64 bits.
pub fn digest(bytes: &[u8]) -> u64 {
    bytes.iter().fold(0xcbf2_9ce4_8422_2325, |hash, &byte| {
        (hash ^ u64::from(byte)).wrapping_mul(0x0000_0100_0000_01b3)
    })
}

/// The answer to a text and the digest of the whole output after the call.
pub fn answer(text: &[u8], output: usize, bare: bool) -> (Answer, u64) {
    let mut output = vec![FILLING; output];
    let reader = if bare { read_bare } else { read };
    let answer = reader(text, &mut output);
    (answer, digest(&output))
}
