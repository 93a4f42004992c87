//! Reads that another instance's write overtakes. Instance A reads a place at turn r, another instance writes another value there at turn w after r, and after
//! w A still uses what it read: in a write, a constructor or an if that it was computed into, or in a write or a constructor inside an if that it decided. A's
//! own write of the place before w ends the matter. A race is a thing to look at and not an error.

use crate::lines::Place;
use crate::story::{Event, How, Mark, Story};
use std::collections::HashMap;

pub struct Race {
    pub read: usize,
    pub write: usize,
    /// The turns after the write that still rest on the read.
    pub late: Vec<usize>,
    /// The race as a sentence; statements are in backquotes.
    pub says: String,
}

/// What the races are found from.
struct Index<'s> {
    by_turn: HashMap<usize, &'s Event>,
    writes: HashMap<Place, Vec<&'s Event>>,
    /// The turns that rest on each read, and how.
    uses: HashMap<usize, Vec<(usize, How)>>,
}

pub fn races(story: &Story) -> Vec<Race> {
    let mut index = Index { by_turn: HashMap::new(), writes: HashMap::new(), uses: HashMap::new() };
    for event in story.events() {
        index.by_turn.insert(event.turn.turn, event);
        if let Mark::Write(place, ..) = event.mark {
            index.writes.entry(place).or_default().push(event);
        }
        for &(read, how) in &event.uses {
            index.uses.entry(read).or_default().push((event.turn.turn, how));
        }
    }
    story.events().filter_map(|event| overtaken(story, &index, event)).collect()
}

/// The race of a read, where there is one.
fn overtaken(story: &Story, index: &Index, read: &Event) -> Option<Race> {
    let Mark::Read(place, got) = read.mark else { return None };
    let writes = index.writes.get(&place)?;
    let after = writes.partition_point(|write| write.turn.turn <= read.turn.turn);
    let uses = index.uses.get(&read.turn.turn)?;
    for write in &writes[after..] {
        let late: Vec<(usize, How)> = uses.iter().copied().filter(|(turn, _)| *turn > write.turn.turn).collect();
        if write.turn.label == read.turn.label || late.is_empty() {
            return None;
        }
        if matches!(write.mark, Mark::Write(_, _, new) if new != got) {
            let says = sentence(story, index, read, write, &late);
            let late = late.iter().map(|(turn, _)| *turn).collect();
            return Some(Race { read: read.turn.turn, write: write.turn.turn, late, says });
        }
    }
    None
}

fn sentence(story: &Story, index: &Index, read: &Event, write: &Event, late: &[(usize, How)]) -> String {
    let (Mark::Read(place, got), Mark::Write(_, _, new)) = (read.mark, write.mark) else { return String::new() };
    let (reader, writer, seen) = (story.name(read.turn.label), story.name(write.turn.label), story.value(place, got));
    let front = format!(
        "{reader} reads {} as {seen} at turn {}. {writer} makes it {} at turn {}. ",
        story.at(place),
        read.turn.turn,
        story.value(place, new),
        write.turn.turn
    );
    let statement = |turn: &usize| index.by_turn.get(turn).map_or(String::new(), |event| shown(event));
    if let Some((turn, _)) = late.iter().find(|(_, how)| *how == How::Value) {
        return format!("{front}At turn {turn} {reader} still uses the old {seen} ({}).", statement(turn));
    }
    let is_if = |turn: &usize| index.by_turn.get(turn).is_some_and(|event| matches!(event.mark, Mark::If(_)));
    let mut decided = index.uses[&read.turn.turn].iter().map(|(turn, _)| *turn).filter(|turn| *turn < write.turn.turn);
    let decided = decided.rfind(is_if);
    let decided = decided.map_or(String::new(), |turn| format!(" (turn {turn})"));
    let acts: Vec<String> = late.iter().map(|(turn, _)| format!("{} at turn {turn}", statement(turn))).collect();
    format!(
        "{front}{reader} had decided its `if` by the old {seen}{decided} and still acts on that: {}.",
        acts.join(" and ")
    )
}

/// The statement of a turn in backquotes; its command where the program came as an image.
fn shown(event: &Event) -> String {
    format!("`{}`", if event.statement.is_empty() { &event.command } else { &event.statement })
}
