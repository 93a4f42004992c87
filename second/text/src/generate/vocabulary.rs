//! Words, symbols and random names and literals to write texts with.

use super::random::Random;

/// The grammar's own words, which are no names.
pub const WORDS: [&str; 12] = [
    "struct", "if", "then", "null", "this", "Fix", "Int", "Nat", "Bool", "String", "true", "false",
];

/// Everything else that is a token, save names and literals.
pub const SYMBOLS: [&str; 23] = [
    "(", ")", "{", "}", ",", ":", ";", ":=", ".", "!", "=", "!=", "<=", ">=", "<", ">", "*", "/",
    "%", "+", "-", "&&", "||",
];

/// The operators in the order of their bytes from 32 on, with their levels
/// from the weakest.
pub const OPERATORS: [(&str, usize); 13] = [
    ("=", 2),
    ("!=", 2),
    ("<=", 2),
    (">=", 2),
    ("<", 2),
    (">", 2),
    ("*", 4),
    ("/", 4),
    ("%", 4),
    ("+", 3),
    ("-", 3),
    ("&&", 1),
    ("||", 0),
];

/// Names that all kinds of things share, some of them near to words.
const SHARED: [&str; 24] = [
    "a", "b", "n", "P", "x", "val", "prev", "e1", "n2n", "and", "or", "If", "int", "structs",
    "then_", "nullInt", "This", "fix", "Fix1", "string", "Strings", "trues", "x_", "T",
];

/// A name of the shared ones, or of random bytes; now and then a long one.
pub fn name(random: &mut Random) -> Vec<u8> {
    if !random.one_in(3) {
        return random.pick(&SHARED).as_bytes().to_vec();
    }
    const LETTERS: &[u8] = b"abcxyzABCXYZ";
    const REST: &[u8] = b"abnxyzABNXYZ0189_";
    let length = if random.one_in(40) { random.below(300) } else { random.below(6) };
    let mut name = vec![*random.pick(LETTERS)];
    name.extend((0..length).map(|_| *random.pick(REST)));
    if WORDS.iter().any(|word| word.as_bytes() == name) { b"w".to_vec() } else { name }
}

fn digits(random: &mut Random, value: u64) -> String {
    let zeros = if random.one_in(6) { random.below(12) } else { 0 };
    format!("{}{value}", "0".repeat(zeros))
}

/// A random value up to this greatest one, often at the edges.
fn value(random: &mut Random, greatest: u64) -> u64 {
    match random.below(8) {
        0 => greatest,
        1 => greatest - 1,
        2 => 0,
        3 => random.next() % (greatest + 1),
        _ => random.next() % 100,
    }
}

/// An Int literal and its four bytes.
pub fn int(random: &mut Random) -> (Vec<u8>, [u8; 4]) {
    let negative = random.one_in(2);
    let size = value(random, if negative { 1 << 31 } else { (1 << 31) - 1 });
    let signed = if negative { -(size as i64) } else { size as i64 };
    let literal = format!("{}{}", if negative { '-' } else { '+' }, digits(random, size));
    (literal.into_bytes(), (signed as i32).to_le_bytes())
}

/// A Nat literal and its four bytes.
pub fn nat(random: &mut Random) -> (Vec<u8>, [u8; 4]) {
    let value = value(random, u64::from(u32::MAX));
    (format!("{}n", digits(random, value)).into_bytes(), (value as u32).to_le_bytes())
}

/// A token of any kind.
pub fn token(random: &mut Random) -> Vec<u8> {
    match random.below(5) {
        0 => random.pick(&WORDS).as_bytes().to_vec(),
        1 | 2 => random.pick(&SYMBOLS).as_bytes().to_vec(),
        3 if random.one_in(2) => int(random).0,
        3 => nat(random).0,
        _ => name(random),
    }
}
