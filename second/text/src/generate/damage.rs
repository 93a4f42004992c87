//! Damage by token, by name and by byte.

use super::random::Random;
use super::vocabulary::{self, WORDS};

fn is_name(token: &[u8]) -> bool {
    token.first().is_some_and(u8::is_ascii_alphabetic)
        && !WORDS.iter().any(|word| word.as_bytes() == token)
}

/// One token lost, doubled, exchanged, replaced or put in.
fn by_token(random: &mut Random, tokens: &mut Vec<Vec<u8>>) {
    let at = random.below(tokens.len());
    let other = random.below(tokens.len());
    let next = (at + 1) % tokens.len();
    match random.below(6) {
        0 => {
            tokens.remove(at);
        }
        1 => tokens.insert(at, tokens[at].clone()),
        2 => tokens.swap(at, other),
        3 => tokens.swap(at, next),
        4 => tokens[at] = vocabulary::token(random),
        _ => tokens.insert(at, vocabulary::token(random)),
    }
}

/// One name replaced by another of the text or any.
fn by_name(random: &mut Random, tokens: &mut [Vec<u8>]) {
    let names: Vec<usize> = (0..tokens.len()).filter(|&at| is_name(&tokens[at])).collect();
    if names.is_empty() {
        return;
    }
    let at = *random.pick(&names);
    tokens[at] = if random.one_in(3) {
        vocabulary::name(random)
    } else {
        tokens[*random.pick(&names)].clone()
    };
}

/// Damages tokens, mostly once.
pub fn tokens(random: &mut Random, tokens: &mut Vec<Vec<u8>>) {
    for _ in 0..if random.one_in(5) { 3 } else { 1 } {
        if tokens.is_empty() {
            return;
        }
        if random.one_in(2) { by_token(random, tokens) } else { by_name(random, tokens) }
    }
}

/// One byte lost, doubled, changed, put in, or the rest cut off.
pub fn bytes(random: &mut Random, text: &mut Vec<u8>) {
    const BYTES: &[u8] = b"+-*/%()<>=!&|{}.,:;_n019azAZ \t\n\r\x0b\x0c\0\x7f\x80\xc3\xff\"'#@";
    if text.is_empty() {
        return;
    }
    let at = random.below(text.len());
    let byte = if random.one_in(8) { random.next() as u8 } else { *random.pick(BYTES) };
    match random.below(9) {
        0 | 1 => {
            text.remove(at);
        }
        2 => text.insert(at, text[at]),
        3 => text.truncate(at),
        4 | 5 => text.insert(at, byte),
        _ => text[at] = byte,
    }
}
