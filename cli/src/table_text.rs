//! Tables as text to their stream (docs/FORMAT.md, 'Tables as text'): a line for each record with its label, struct and values. A text is converted where
//! each number is one that its place can hold in four bytes; whether the table is accepted is decided by the library.

use crate::program::{INT, Program, shown};
use crate::report::{Failure, Refusal, Spot};

/// A text has at most as many bytes, as `audala_table` has it.
pub const MOST: usize = 65_535;

/// A line's numbers, and where each begins in the text.
pub struct Line {
    pub numbers: Vec<i64>,
    pub places: Vec<usize>,
}

struct Fault {
    at: usize,
    cause: String,
}

/// The lines of a table text, each a record of the program's.
pub fn read(program: &Program, file: &str, text: &[u8]) -> Result<Vec<Line>, Failure> {
    let lines = lines(text).and_then(|lines| check(program, &lines).map(|()| lines));
    lines.map_err(|fault| {
        let hints = vec!["A line is: label struct value value .. (docs/FORMAT.md, 'Tables as text').".to_string()];
        let spot = Some(Spot::of(text, fault.at));
        Failure::Refused(Box::new(Refusal { file: shown(file), number: None, cause: fault.cause, spot, hints }))
    })
}

/// The stream of lines: N, then a struct byte and four bytes for each value.
pub fn stream(lines: &[Line]) -> Vec<u8> {
    let mut stream = (lines.len() as u16).to_le_bytes().to_vec();
    for line in lines {
        stream.push(line.numbers[1] as u8);
        line.numbers[2..].iter().for_each(|&value| stream.extend((value as u32).to_le_bytes()));
    }
    stream
}

/// The numbers of a text, line by line; empty lines mean nothing.
fn lines(text: &[u8]) -> Result<Vec<Line>, Fault> {
    if text.len() > MOST {
        return Err(Fault { at: MOST, cause: format!("a table text has at most {MOST} bytes") });
    }
    let mut lines = Vec::new();
    let mut begin = 0;
    for piece in text.split(|&b| b == b'\n') {
        let line = line(piece, begin)?;
        if !line.numbers.is_empty() {
            lines.push(line);
        }
        begin += piece.len() + 1;
    }
    Ok(lines)
}

/// The numbers of one line, which begins at a place of the text.
fn line(piece: &[u8], begin: usize) -> Result<Line, Fault> {
    let mut line = Line { numbers: Vec::new(), places: Vec::new() };
    let mut at = 0;
    while at < piece.len() {
        if matches!(piece[at], b' ' | b'\t' | b'\r' | b',') {
            at += 1;
            continue;
        }
        let digits = at + usize::from(piece[at] == b'-');
        let end = digits + piece[digits..].iter().take_while(|b| b.is_ascii_digit()).count();
        let stray = piece.get(end).filter(|b| !matches!(b, b' ' | b'\t' | b'\r' | b','));
        if end == digits || stray.is_some() {
            return Err(Fault { at: begin + end, cause: "this is not a number".to_string() });
        }
        line.numbers.push(number(&piece[at..end], begin + at)?);
        line.places.push(begin + at);
        at = end;
    }
    Ok(line)
}

/// A number with its sign, of at most 4294967295.
fn number(spelled: &[u8], at: usize) -> Result<i64, Fault> {
    let minus = spelled[0] == b'-';
    let mut value: i64 = 0;
    for digit in &spelled[usize::from(minus)..] {
        value = 10 * value + i64::from(digit - b'0');
        if value > i64::from(u32::MAX) {
            return Err(Fault { at, cause: "this number is over 4294967295".to_string() });
        }
    }
    if minus && value == 0 {
        return Err(Fault { at, cause: "zero has no minus sign".to_string() });
    }
    Ok(if minus { -value } else { value })
}

/// Each line has the label that is due, a struct of the program and one value for each of its parameters.
fn check(program: &Program, lines: &[Line]) -> Result<(), Fault> {
    if lines.len() > usize::from(u16::MAX) {
        return Err(Fault { at: lines[0].places[0], cause: "there are more than 65535 records".to_string() });
    }
    for (i, line) in lines.iter().enumerate() {
        let due = program.nulls() + i;
        if line.numbers[0] != due as i64 {
            return Err(Fault {
                at: line.places[0],
                cause: format!("label {due} is due here: labels go on from {}", program.nulls()),
            });
        }
        record(program, line)?;
    }
    Ok(())
}

fn record(program: &Program, line: &Line) -> Result<(), Fault> {
    let last = line.places[line.places.len() - 1];
    let Some(&structure) = line.numbers.get(1) else {
        return Err(Fault { at: last, cause: "a struct is due after the label".to_string() });
    };
    let Some(kind) = usize::try_from(structure).ok().and_then(|k| program.structs.get(k)) else {
        let cause = format!("there is no struct {structure}: structs are numbered from 0 to {}", program.nulls() - 1);
        return Err(Fault { at: line.places[1], cause });
    };
    let values = &line.numbers[2..];
    if values.len() != kind.parameters.len() {
        let at = line.places.get(2 + kind.parameters.len()).copied().unwrap_or(last);
        let cause =
            format!("{} has {} parameters, and here are {} values", kind.name, kind.parameters.len(), values.len());
        return Err(Fault { at, cause });
    }
    for (i, (parameter, &value)) in kind.parameters.iter().zip(values).enumerate() {
        let int = i64::from(i32::MIN)..=i64::from(i32::MAX);
        if if parameter.of == INT { !int.contains(&value) } else { value < 0 } {
            let name = program.type_name(parameter.of);
            return Err(Fault {
                at: line.places[i + 2],
                cause: format!("{}: {value} is not a value of {name}", parameter.name),
            });
        }
    }
    Ok(())
}
