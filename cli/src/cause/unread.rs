//! Why no token begins at a place of a text.

use super::Cause;
use crate::report::printable;

/// Bytes that a text has at most.
const MOST_TEXT: usize = 65_536;

pub fn cause(text: &[u8], at: usize) -> Option<Cause> {
    if text.len() > MOST_TEXT {
        return Some(Cause { at, says: format!("the text has {} bytes; {MOST_TEXT} is the most", text.len()) });
    }
    let rest = &text[at..];
    let digits = rest.iter().take_while(|b| b.is_ascii_digit()).count();
    let says = if digits > 0 {
        let spelled = String::from_utf8_lossy(&rest[..digits]);
        format!("'{spelled}' is no literal: write +{spelled} (Int) or {spelled}n (Nat)")
    } else if rest.starts_with(b"/*") {
        "this comment is not closed: a comment ends with */".to_string()
    } else {
        let first = String::from_utf8_lossy(rest).chars().next()?;
        let cause = if first.is_ascii() { "begins no token" } else { "is no token: outside comments only ASCII" };
        format!("'{}' {cause}", printable(&first.to_string()))
    };
    Some(Cause { at, says })
}
