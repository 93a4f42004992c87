//! The tokens of a program text that the library has read (docs/FORMAT.md, 'Tokens'). They are for labels alone: what a text means is decided by the library.

/// Where a token begins and ends in its text.
#[derive(Clone, Copy, Debug)]
pub struct Token {
    pub begin: usize,
    pub end: usize,
}

const PAIRS: [&[u8]; 6] = [b":=", b"!=", b"<=", b">=", b"&&", b"||"];

/// The tokens of a text, up to the first byte at which none begins.
pub fn tokens(text: &[u8]) -> Vec<Token> {
    let mut found = Vec::new();
    let mut at = 0;
    loop {
        at = after_gap(text, at);
        let end = token_end(text, at);
        if end == at {
            return found;
        }
        found.push(Token { begin: at, end });
        at = end;
    }
}

/// The place after blanks and comments.
fn after_gap(text: &[u8], mut at: usize) -> usize {
    loop {
        while text.get(at).is_some_and(|b| matches!(b, 9 | 10 | 13 | 32)) {
            at += 1;
        }
        if !text[at..].starts_with(b"/*") {
            return at;
        }
        match text[at + 2..].windows(2).position(|pair| pair == b"*/") {
            Some(length) => at += length + 4,
            None => return text.len(),
        }
    }
}

fn run_end(text: &[u8], mut at: usize, belongs: impl Fn(&u8) -> bool) -> usize {
    while text.get(at).is_some_and(&belongs) {
        at += 1;
    }
    at
}

/// The end of the longest token that begins at a place; the place itself where none does.
fn token_end(text: &[u8], at: usize) -> usize {
    let Some(&first) = text.get(at) else { return at };
    if first.is_ascii_alphabetic() {
        return run_end(text, at, |b| b.is_ascii_alphanumeric() || *b == b'_');
    }
    if first.is_ascii_digit() {
        let end = run_end(text, at, u8::is_ascii_digit);
        return if text.get(end) == Some(&b'n') { end + 1 } else { at };
    }
    if matches!(first, b'+' | b'-') {
        return run_end(text, at + 1, u8::is_ascii_digit);
    }
    if PAIRS.iter().any(|pair| text[at..].starts_with(pair)) {
        return at + 2;
    }
    if b"(){},:;.!=<>*/%".contains(&first) { at + 1 } else { at }
}

#[cfg(test)]
mod tests {
    use super::*;

    fn spelled(text: &str) -> Vec<&str> {
        tokens(text.as_bytes()).iter().map(|t| &text[t.begin..t.end]).collect()
    }

    #[test]
    fn the_longest_token_comes_first() {
        assert_eq!(spelled("a-1 <=b thenx/* c */5n:=+ x"), ["a", "-1", "<=", "b", "thenx", "5n", ":=", "+", "x"]);
        assert_eq!(spelled("a 5 b"), ["a"]);
        assert_eq!(spelled("a /* b"), ["a"]);
    }
}
