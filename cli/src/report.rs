//! What a word of the program comes to: what it prints and its exit status, or why it did not do what was asked. Refusals are printed here, with the number,
//! its meaning, and the place with its line of text where a place is known.

/// Exit statuses.
pub const DONE: u8 = 0;
pub const REFUSED: u8 = 1;
pub const STOPPED: u8 = 2;
pub const MISUSE: u8 = 3;

/// What a word prints on standard output, and the exit status.
pub struct Answer {
    pub out: Vec<u8>,
    pub status: u8,
}

impl Answer {
    pub fn done(out: impl Into<Vec<u8>>) -> Answer {
        Answer { out: out.into(), status: DONE }
    }
}

/// Why a word did not do what was asked.
#[derive(Debug)]
pub enum Failure {
    Refused(Box<Refusal>),
    /// Wrong arguments; the word whose help says how to call it, if one was named.
    Misuse(String, Option<&'static str>),
    /// A file that cannot be read or written.
    File(String),
}

/// A refused input. The number is the library's; a table or turns in text form that spell nothing the library could be handed have none.
#[derive(Debug)]
pub struct Refusal {
    pub file: String,
    pub number: Option<u32>,
    pub cause: String,
    pub spot: Option<Spot>,
    pub hints: Vec<String>,
}

/// A place in a text: line and column from 1, columns in bytes, and the line's bytes.
#[derive(Debug, Clone)]
pub struct Spot {
    pub line: usize,
    pub column: usize,
    pub text: Vec<u8>,
}

impl Spot {
    /// The place of the byte `at` of a text; the text's end is a place too.
    pub fn of(text: &[u8], at: usize) -> Spot {
        let at = at.min(text.len());
        let begin = text[..at].iter().rposition(|&b| b == b'\n').map_or(0, |i| i + 1);
        let end = text[at..].iter().position(|&b| b == b'\n').map_or(text.len(), |i| at + i);
        let line = 1 + text[..at].iter().filter(|&&b| b == b'\n').count();
        Spot { line, column: at - begin + 1, text: text[begin..end].to_vec() }
    }

    /// The line, and under it a mark at the column. Long lines are cut round the place.
    pub fn marked(&self) -> (String, String) {
        const ROOM: usize = 60;
        let front = String::from_utf8_lossy(&self.text[..(self.column - 1).min(self.text.len())]).into_owned();
        let rest = String::from_utf8_lossy(&self.text[(self.column - 1).min(self.text.len())..]).trim_end().to_string();
        let count = front.chars().count();
        let kept: String =
            if count > ROOM { std::iter::once('…').chain(front.chars().skip(count - ROOM)).collect() } else { front };
        let shown: String = if rest.chars().count() > ROOM {
            rest.chars().take(ROOM).chain(std::iter::once('…')).collect()
        } else {
            rest
        };
        let blank = |c: char| if c == '\t' { '\t' } else { ' ' };
        let under: String = kept.chars().map(blank).collect();
        (printable(&format!("{kept}{shown}")), format!("{under}^"))
    }
}

/// A line without control characters, so that a terminal shows what is there.
pub fn printable(line: &str) -> String {
    line.chars().map(|c| if c.is_control() && c != '\t' { '\u{fffd}' } else { c }).collect()
}

impl Failure {
    pub fn status(&self) -> u8 {
        match self {
            Failure::Refused(_) => REFUSED,
            Failure::Misuse(..) | Failure::File(_) => MISUSE,
        }
    }

    /// What is printed on standard error.
    pub fn text(&self, plain: bool) -> String {
        match self {
            Failure::Refused(refusal) if plain => refusal.plain(),
            Failure::Refused(refusal) => refusal.human(),
            Failure::File(message) => format!("audala: {message}\n"),
            Failure::Misuse(message, Some(word)) => format!("audala: {message}\nSee: audala {word} --help\n"),
            Failure::Misuse(message, None) => format!("audala: {message}\nSee: audala --help\n"),
        }
    }
}

impl Refusal {
    fn human(&self) -> String {
        let number = self.number.map_or(String::new(), |n| format!(" with {n}"));
        let mut out = format!("{}: refused{number}: {}\n", self.file, self.cause);
        if let Some(spot) = &self.spot {
            let (line, mark) = spot.marked();
            out += &format!("  line {}, column {}:\n    {line}\n    {mark}\n", spot.line, spot.column);
        }
        self.hints.iter().for_each(|hint| out += &format!("  {hint}\n"));
        out
    }

    /// One item a line: `refused` and the number, or `form` where the text form itself is wrong.
    fn plain(&self) -> String {
        let number = self.number.map_or("form".to_string(), |n| n.to_string());
        let mut out = format!("refused {number}\nfile {}\ncause {}\n", self.file, self.cause);
        if let Some(spot) = &self.spot {
            out += &format!("line {}\ncolumn {}\n", spot.line, spot.column);
        }
        out
    }
}

#[cfg(test)]
mod tests {
    use super::*;

    #[test]
    fn a_mark_is_under_its_byte() {
        let text = b"one\n\tload := load+1;\n";
        let spot = Spot::of(text, 17);
        assert_eq!((spot.line, spot.column), (2, 14));
        assert_eq!(spot.marked(), ("\tload := load+1;".to_string(), "\t            ^".to_string()));
    }

    #[test]
    fn the_end_of_a_text_is_a_place() {
        let spot = Spot::of(b"a\nb", 3);
        assert_eq!((spot.line, spot.column, spot.marked().1.as_str()), (2, 2, " ^"));
        let empty = Spot::of(b"", 0);
        assert_eq!((empty.line, empty.column), (1, 1));
    }

    #[test]
    fn long_lines_are_cut_round_the_place() {
        let line = vec![b'x'; 1_000];
        let (shown, mark) = Spot::of(&line, 500).marked();
        assert_eq!(shown.chars().count(), 122);
        assert_eq!(mark.chars().count(), 62);
    }
}
