//! Tokens written out, with blanks, tabs, line ends and comments between
//! them, or nothing where the longest token allows it.

use super::random::Random;

/// Whether two tokens without anything between them begin with another token
/// than the first.
fn run_together(left: &[u8], right: &[u8]) -> bool {
    let (Some(&first), Some(&next)) = (left.first(), right.first()) else { return false };
    let single = left.len() == 1;
    match first {
        b'+' | b'-' => next.is_ascii_digit(),
        b':' | b'!' | b'<' | b'>' => single && next == b'=',
        b'/' => single && next == b'*',
        b'&' | b'|' => single && next == first,
        _ => first.is_ascii_alphabetic() && (next.is_ascii_alphanumeric() || next == b'_'),
    }
}

/// A comment; it holds anything but its end.
fn comment(random: &mut Random) -> Vec<u8> {
    const PIECES: [&[u8]; 12] = [
        b"*",
        b"/",
        b"/*",
        b"a",
        b" ",
        b"\n",
        b";",
        b"\xe2\x88\x92",
        b"\0",
        b"struct",
        b"**",
        b"\"",
    ];
    let mut comment = b"/*".to_vec();
    for _ in 0..random.below(6) {
        let piece = random.pick(&PIECES);
        let closes = comment.len() > 2 && comment.last() == Some(&b'*') && piece[0] == b'/';
        if !closes {
            comment.extend_from_slice(piece);
        }
    }
    comment.extend(b"*/");
    comment
}

fn gap(random: &mut Random) -> Vec<u8> {
    match random.below(8) {
        0 => b"\n".to_vec(),
        1 => b"\t".to_vec(),
        2 => b"\r\n".to_vec(),
        3 => comment(random),
        4 => [comment(random), b" ".to_vec(), comment(random)].concat(),
        5 => b"  \r\t\n ".to_vec(),
        _ => b" ".to_vec(),
    }
}

/// How tokens are parted.
#[derive(Clone, Copy)]
pub enum Style {
    /// Only where they must be.
    Tight,
    Blanks,
    /// Anything that parts tokens, or nothing.
    Wild,
    /// Not even where they must be, now and then.
    Careless,
}

pub fn style(random: &mut Random) -> Style {
    *random.pick(&[Style::Tight, Style::Blanks, Style::Wild, Style::Wild])
}

pub fn render(random: &mut Random, tokens: &[Vec<u8>], style: Style) -> Vec<u8> {
    let mut text = Vec::new();
    for (index, token) in tokens.iter().enumerate() {
        let must = index > 0 && run_together(&tokens[index - 1], token);
        match style {
            Style::Tight if must => text.push(b' '),
            Style::Tight => {}
            Style::Blanks => text.push(b' '),
            Style::Careless if random.one_in(20) => {}
            Style::Wild | Style::Careless if must || random.one_in(2) => {
                text.extend(gap(random));
            }
            Style::Wild | Style::Careless => {}
        }
        text.extend_from_slice(token);
    }
    if matches!(style, Style::Wild) && random.one_in(2) {
        text.extend(gap(random));
    }
    text
}
