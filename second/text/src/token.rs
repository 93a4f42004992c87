//! Tokens (02 §1): "blanks, tabs, line ends and /* */ comments part tokens.
//! The longest token is taken first."

use crate::limits::TEXT_BYTES;

/// What a token is. An operator's value is its stream byte (01, "32-44 the
/// operators").
#[derive(Clone, Copy, PartialEq, Eq, Debug)]
#[repr(u8)]
pub enum Kind {
    Name,
    IntLiteral,
    NatLiteral,
    Struct,
    If,
    Then,
    Null,
    This,
    Fix,
    True,
    False,
    String,
    Int,
    Nat,
    Bool,
    Open,
    Close,
    BraceOpen,
    BraceClose,
    Comma,
    Colon,
    Semicolon,
    Assign,
    Dot,
    Not,
    End,
    Equal = 32,
    NotEqual,
    AtMost,
    AtLeast,
    Less,
    Greater,
    Times,
    Divide,
    Remainder,
    Plus,
    Minus,
    And,
    Or,
}

impl Kind {
    pub fn is_operator(self) -> bool {
        self as u8 >= Kind::Equal as u8
    }

    /// "String is such a word but no type" (02 §1); a name is a struct's.
    pub fn is_type(self) -> bool {
        matches!(self, Kind::Name | Kind::Int | Kind::Nat | Kind::Bool)
    }
}

/// A token, and its first and last byte in the text: both are below 65,536,
/// and no token is empty.
#[derive(Clone, Copy, Debug)]
pub struct Token {
    pub kind: Kind,
    first: u16,
    last: u16,
}

impl Token {
    /// The token's bytes in the text it was scanned from.
    pub fn bytes(self, text: &[u8]) -> &[u8] {
        &text[usize::from(self.first)..=usize::from(self.last)]
    }
}

/// The kind that a word is: "Names are a letter, then letters, digits or
/// underscores, and none of the grammar's own words" (02 §1).
fn word(bytes: &[u8]) -> Kind {
    match (bytes.len(), bytes) {
        (2, b"if") => Kind::If,
        (3, b"Int") => Kind::Int,
        (3, b"Nat") => Kind::Nat,
        (3, b"Fix") => Kind::Fix,
        (4, b"then") => Kind::Then,
        (4, b"null") => Kind::Null,
        (4, b"this") => Kind::This,
        (4, b"true") => Kind::True,
        (4, b"Bool") => Kind::Bool,
        (5, b"false") => Kind::False,
        (6, b"struct") => Kind::Struct,
        (6, b"String") => Kind::String,
        _ => Kind::Name,
    }
}

/// The end of the longest run of bytes from `at` on that all hold.
fn run(text: &[u8], at: usize, holds: impl Fn(&u8) -> bool) -> usize {
    text[at..].iter().position(|byte| !holds(byte)).map_or(text.len(), |length| at + length)
}

fn is_name_byte(byte: &u8) -> bool {
    byte.is_ascii_alphanumeric() || *byte == b'_'
}

/// "Nat literals end in n" (02 §1); digits alone are no token.
fn nat_literal(text: &[u8], at: usize) -> Option<(Kind, usize)> {
    let end = run(text, at, u8::is_ascii_digit);
    (text.get(end) == Some(&b'n')).then_some((Kind::NatLiteral, end + 1))
}

/// A symbol of 000's grammar or an operator as 02 §1 writes it, and its
/// length.
fn symbol(byte: u8, next: u8) -> Option<(Kind, usize)> {
    let longer = |kind, last, otherwise| {
        if next == last { (kind, 2) } else { (otherwise, 1) }
    };
    Some(match byte {
        b'(' => (Kind::Open, 1),
        b')' => (Kind::Close, 1),
        b'{' => (Kind::BraceOpen, 1),
        b'}' => (Kind::BraceClose, 1),
        b',' => (Kind::Comma, 1),
        b';' => (Kind::Semicolon, 1),
        b'.' => (Kind::Dot, 1),
        b':' => longer(Kind::Assign, b'=', Kind::Colon),
        b'!' => longer(Kind::NotEqual, b'=', Kind::Not),
        b'<' => longer(Kind::AtMost, b'=', Kind::Less),
        b'>' => longer(Kind::AtLeast, b'=', Kind::Greater),
        b'=' => (Kind::Equal, 1),
        b'*' => (Kind::Times, 1),
        b'/' => (Kind::Divide, 1),
        b'%' => (Kind::Remainder, 1),
        b'+' => (Kind::Plus, 1),
        b'-' => (Kind::Minus, 1),
        b'&' if next == b'&' => (Kind::And, 2),
        b'|' if next == b'|' => (Kind::Or, 2),
        _ => return None,
    })
}

/// The longest token that begins at `at`, and its end; `next` is the byte
/// after its first.
fn token(text: &[u8], at: usize, next: u8) -> Option<(Kind, usize)> {
    match text[at] {
        b'a'..=b'z' | b'A'..=b'Z' => {
            let end = run(text, at + 1, is_name_byte);
            Some((word(&text[at..end]), end))
        }
        b'0'..=b'9' => nat_literal(text, at),
        // "Int literals carry a sign" (02 §1).
        b'+' | b'-' if next.is_ascii_digit() => {
            Some((Kind::IntLiteral, run(text, at + 1, u8::is_ascii_digit)))
        }
        byte => symbol(byte, next).map(|(kind, length)| (kind, at + length)),
    }
}

/// The end of the comment opened at `at`, by the first */ after its /*.
fn comment(text: &[u8], at: usize) -> Option<usize> {
    let body = &text[at + 2..];
    body.windows(2).position(|pair| pair == b"*/").map(|length| at + 2 + length + 2)
}

/// All tokens of a text and an `End` after them, which stands for no bytes;
/// none for 15.
pub fn scan(text: &[u8]) -> Option<Vec<Token>> {
    if text.len() > TEXT_BYTES {
        return None;
    }
    let mut tokens = Vec::with_capacity(text.len() / 2 + 1);
    let mut at = 0;
    while let Some(&byte) = text.get(at) {
        // Behind the text stands a byte that is part of no token.
        let next = text.get(at + 1).copied().unwrap_or(0);
        at = match byte {
            b' ' | b'\t' | b'\n' | b'\r' => at + 1,
            b'/' if next == b'*' => comment(text, at)?,
            _ => {
                let (kind, end) = token(text, at, next)?;
                tokens.push(Token { kind, first: at as u16, last: (end - 1) as u16 });
                end
            }
        };
    }
    tokens.push(Token { kind: Kind::End, first: 0, last: 0 });
    Some(tokens)
}
