//! The lines of a trace as the library writes them (docs/FORMAT.md, 'Traces'), taken apart.

/// A value with its type byte; Ints have their sign.
pub type Tagged = (u8, i64);

/// A parameter of an instance: label and position.
pub type Place = (usize, usize);

#[derive(Debug, PartialEq)]
pub enum Line {
    /// A move of the schedule, with the stability entries after it, the top one first.
    Move(String),
    Turn(Box<Turn>),
}

#[derive(Debug, PartialEq)]
pub struct Turn {
    pub turn: usize,
    pub byte: u8,
    pub label: usize,
    pub structure: usize,
    pub step: usize,
    pub position: usize,
    pub command: String,
    /// The stack after the command, the top last.
    pub stack: Vec<Tagged>,
    /// The parameter that the command wrote, its value before and after.
    pub wrote: Option<(Place, i64, i64)>,
    pub entries: String,
}

/// All lines but the last, and of that the number and the turns. None where a line is of another form.
pub fn lines(text: &[u8]) -> Option<(Vec<Line>, u32, usize)> {
    let text = std::str::from_utf8(text).ok()?;
    let mut lines = Vec::new();
    for line in text.lines() {
        if let Some(end) = line.strip_prefix("end ") {
            let (number, turns) = end.split_once(' ')?;
            return Some((lines, number.parse().ok()?, turns.parse().ok()?));
        }
        lines.push(match line.strip_prefix("move s") {
            Some(entries) => Line::Move(entries.to_string()),
            None => Line::Turn(Box::new(turn(line)?)),
        });
    }
    None
}

fn turn(line: &str) -> Option<Turn> {
    let (front, rest) = line.split_once(" [")?;
    let (stack, rest) = rest.split_once(']')?;
    let mut words = front.splitn(7, ' ');
    let mut number = || words.next()?.parse::<usize>().ok();
    let (turn, byte, label, structure, step, position) =
        (number()?, number()?, number()?, number()?, number()?, number()?);
    let command = words.next()?.to_string();
    let tagged = |word: &str| {
        let (of, value) = word.split_once(':')?;
        Some((of.parse().ok()?, value.parse().ok()?))
    };
    let stack: Option<Vec<Tagged>> = stack.split_whitespace().map(tagged).collect();
    let (wrote, entries) = rest.trim_start().rsplit_once('s')?;
    let wrote: Vec<&str> = wrote.split_whitespace().collect();
    let wrote = match wrote[..] {
        [] => None,
        [place, old, new] => {
            let (label, parameter) = place.split_once('.')?;
            Some(((label.parse().ok()?, parameter.parse().ok()?), old.parse().ok()?, new.parse().ok()?))
        }
        _ => return None,
    };
    let byte = u8::try_from(byte).ok()?;
    Some(Turn {
        turn,
        byte,
        label,
        structure,
        step,
        position,
        command,
        stack: stack?,
        wrote,
        entries: entries.to_string(),
    })
}

#[cfg(test)]
mod tests {
    use super::*;

    #[test]
    fn lines_are_taken_apart() {
        let text = b"move s1\n7 200 3 1 0 5 push 0 -4 [ 16:2 0:-4 ] s1\n8 0 4 1 0 12 wr 0 [ ] 2.0 -5 12 s0\nend 33 9\n";
        let (lines, number, turns) = lines(text).unwrap();
        assert_eq!((lines.len(), number, turns), (3, 33, 9));
        assert_eq!(lines[0], Line::Move("1".to_string()));
        let Line::Turn(first) = &lines[1] else { panic!("a turn is due") };
        assert_eq!((first.byte, first.command.as_str(), &first.stack[..]), (200, "push 0 -4", &[(16, 2), (0, -4)][..]));
        let Line::Turn(second) = &lines[2] else { panic!("a turn is due") };
        assert_eq!((second.wrote, second.entries.as_str()), (Some(((2, 0), -5, 12)), "0"));
        assert!(super::lines(b"move s1\n").is_none() && super::lines(b"1 2 3\nend 0 1\n").is_none());
    }
}
