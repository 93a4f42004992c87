//! Why a program text is refused, in words, and where: a walk over the text's own declarations, statements and schedule. The number is the library's; what is
//! found here is a label and is not proved. Where the walk finds nothing that fits the number, it says nothing.

mod cursor;
mod declared;
mod expression;
mod schedule;
mod statements;
mod unread;

use cursor::Cursor;
use declared::Declared;

/// A place in the text and what is wrong there.
#[derive(Debug, Clone, PartialEq)]
pub struct Cause {
    pub at: usize,
    pub says: String,
}

/// The library's numbers that the walk looks for.
const NESTING: u32 = 5;
const LIMIT: u32 = 6;
const STEP: u32 = 7;
const TYPE: u32 = 8;
const TOKEN: u32 = 15;
const NAME: u32 = 17;

/// Where the library has the place of a 17: at a token, at the text's beginning for a declaration, at its end for a count.
#[derive(Debug, Clone, Copy, PartialEq)]
enum Sort {
    Use,
    Declaration,
    Count,
}

#[derive(Debug)]
struct Finding {
    number: u32,
    sort: Sort,
    cause: Cause,
}

/// What was found, in the order of the walk.
#[derive(Debug, Default)]
struct Findings(Vec<Finding>);

impl Findings {
    fn add(&mut self, number: u32, at: usize, says: String) {
        self.0.push(Finding { number, sort: Sort::Use, cause: Cause { at, says } });
    }

    /// A finding of 17 whose place the library does not give.
    fn add_17(&mut self, sort: Sort, at: usize, says: String) {
        self.0.push(Finding { number: NAME, sort, cause: Cause { at, says } });
    }
}

/// The cause of a number from 5 to 8 that the checker gives for a text that was read.
pub fn of_check(text: &[u8], number: u32) -> Option<Cause> {
    walked(text).0.into_iter().find(|found| found.number == number).map(|found| found.cause)
}

/// The cause of a 15 or a 17 that reading stops with at a place.
pub fn of_reading(text: &[u8], number: u32, place: usize) -> Option<Cause> {
    match number {
        TOKEN => unread::cause(text, place),
        NAME => {
            let sort = match place {
                0 => Sort::Declaration,
                _ if place == text.len() => Sort::Count,
                _ => Sort::Use,
            };
            let fits = |found: &Finding| {
                found.number == NAME && found.sort == sort && (sort != Sort::Use || found.cause.at == place)
            };
            walked(text).0.into_iter().find(fits).map(|found| found.cause)
        }
        _ => None,
    }
}

/// All findings of a text that the grammar derives; of another one those up to the place where the walk is lost.
fn walked(text: &[u8]) -> Findings {
    let mut found = Findings::default();
    let mut cursor = Cursor::new(text);
    if let Some(declared) = Declared::read(&mut cursor, &mut found) {
        let _ = statements::walk(text, &declared, &mut found);
        let _ = schedule::walk(&mut cursor, &declared, &mut found);
    }
    found
}

/// A number of things in words.
fn count(number: usize, thing: &str) -> String {
    format!("{number} {thing}{}", if number == 1 { "" } else { "s" })
}

#[cfg(test)]
mod tests {
    use super::*;
    use crate::engine;
    use std::path::Path;

    /// The texts of second/cases/texts.bin: the byte 3, the output's length, the text's length, the text (docs/CASES.md).
    fn cases() -> Vec<Vec<u8>> {
        let bytes = std::fs::read(Path::new(env!("CARGO_MANIFEST_DIR")).join("../second/cases/texts.bin")).unwrap();
        let (mut texts, mut rest) = (Vec::new(), &bytes[..]);
        while let [3, _, _, _, _, a, b, c, d, tail @ ..] = rest {
            let (text, more) = tail.split_at(u32::from_le_bytes([*a, *b, *c, *d]) as usize);
            texts.push(text.to_vec());
            rest = more;
        }
        assert!(rest.is_empty());
        texts
    }

    /// On the committed cases: nothing is found in a text that is accepted; of a number from 5 to 8 something is found unless brackets are too deep for the
    /// walk, and nothing of a lower number, which the library would give.
    #[test]
    fn findings_fit_the_library() {
        let (mut accepted, mut refused, mut lost) = (0, 0, 0);
        for text in cases() {
            let Ok(image) = engine::text(&text) else { continue };
            let (number, found) = (engine::check(&image).number, walked(&text));
            let shown = String::from_utf8_lossy(&text[..text.len().min(200)]).into_owned();
            if number == 0 {
                assert!(found.0.is_empty(), "{shown}: {found:?}");
                accepted += 1;
                continue;
            }
            assert!(found.0.iter().all(|finding| finding.number >= number), "{number}: {shown}: {found:?}");
            refused += 1;
            lost += usize::from(of_check(&text, number).is_none());
        }
        assert!(accepted > 100 && refused > 200 && lost < 10, "{accepted} accepted, {refused} refused, {lost} lost");
    }
}
