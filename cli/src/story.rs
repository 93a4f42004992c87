//! A run by its trace: each turn in words, and which reads each value on a stack was computed from. It follows values over stacks and locals, as the trace
//! shows them. It is a help for the eye and decides nothing.

use crate::acts::Seat;
use crate::lines::{Line, Place, Tagged, Turn};
use crate::program::{BOOL, INT, Program};
use crate::tables::{Table, instance, shown};
use std::collections::HashMap;

/// What the mark of a turn shows.
#[derive(Clone, Copy, Debug, PartialEq)]
pub enum Mark {
    Read(Place, i64),
    Write(Place, i64, i64),
    /// A write to a null instance.
    Dropped,
    If(bool),
    Make(usize),
    Other,
}

/// How a read went into a write, a constructor or an if: into its value, or into an if around it.
#[derive(Clone, Copy, Debug, PartialEq)]
pub enum How {
    Value,
    Choice,
}

pub struct Event {
    pub turn: Box<Turn>,
    pub mark: Mark,
    /// What the instance does, in words.
    pub says: String,
    /// The command with names.
    pub command: String,
    pub statement: String,
    /// The turns of the reads that this rests on.
    pub uses: Vec<(usize, How)>,
}

pub enum Item {
    Move { entries: String, before: String },
    Event(Box<Event>),
}

pub struct Story<'p> {
    pub program: &'p Program,
    pub items: Vec<Item>,
    pub number: u32,
    pub turns: usize,
    /// The struct of each label, and its values before the first turn or when it was made.
    pub kinds: Vec<usize>,
    pub first: Vec<Vec<i64>>,
    /// The turn at which an instance was made.
    pub born: HashMap<usize, usize>,
}

impl<'p> Story<'p> {
    pub fn new(program: &'p Program, table: &Table, lines: Vec<Line>, number: u32, turns: usize) -> Story<'p> {
        let signed = |of: u8, value: u32| if of == INT { i64::from(value.cast_signed()) } else { i64::from(value) };
        let default = |of: u8| i64::from(of.saturating_sub(16));
        let nulls = program.structs.iter().map(|s| s.parameters.iter().map(|p| default(p.of)).collect());
        let records = table.records.iter().map(|record| {
            let types = program.structs[record.structure].parameters.iter();
            types.zip(&record.values).map(|(p, &value)| signed(p.of, value)).collect()
        });
        let first = nulls.chain(records).collect();
        let mut story = Story {
            program,
            items: Vec::new(),
            number,
            turns,
            kinds: table.kinds(program),
            first,
            born: HashMap::new(),
        };
        story.follow(lines);
        story
    }

    fn follow(&mut self, lines: Vec<Line>) {
        let mut seats: HashMap<usize, Seat> = HashMap::new();
        let mut before = String::new();
        for line in lines {
            let item = match line {
                Line::Move(entries) => Item::Move { before: std::mem::replace(&mut before, entries.clone()), entries },
                Line::Turn(turn) => {
                    before.clone_from(&turn.entries);
                    let seat = seats.entry(turn.label).or_default();
                    seat.come_to(turn.position);
                    Item::Event(Box::new(self.event(turn, seat)))
                }
            };
            self.items.push(item);
        }
    }
}

/// Names.
impl Story<'_> {
    pub fn name(&self, label: usize) -> String {
        instance(self.program, &self.kinds, label)
    }

    pub fn parameter(&self, place: Place) -> &str {
        let structure = self.kinds.get(place.0).and_then(|&k| self.program.structs.get(k));
        structure.and_then(|s| s.parameters.get(place.1)).map_or("?", |p| &p.name)
    }

    /// An instance and its parameter, as `Oven 2.total`.
    pub fn at(&self, place: Place) -> String {
        format!("{}.{}", self.name(place.0), self.parameter(place))
    }

    pub fn type_of(&self, place: Place) -> u8 {
        self.program.structs[self.kinds[place.0]].parameters[place.1].of
    }

    pub fn shown(&self, value: Tagged) -> String {
        shown(self.program, &self.kinds, value.0, value.1)
    }

    pub fn value(&self, place: Place, value: i64) -> String {
        self.shown((self.type_of(place), value))
    }

    pub fn local(&self, turn: &Turn, variable: usize) -> String {
        self.program.step(turn.structure, turn.step).map_or(format!("v{variable}"), |step| step.local(variable))
    }

    /// The turns, without the moves.
    pub fn events(&self) -> impl Iterator<Item = &Event> {
        self.items.iter().filter_map(|item| match item {
            Item::Event(event) => Some(&**event),
            Item::Move { .. } => None,
        })
    }

    /// What a move of the schedule does, by the entries round it and the turn after it.
    pub fn moved(&self, at: usize) -> String {
        let Some(Item::Move { entries, before }) = self.items.get(at) else { return String::new() };
        if let Some(Item::Event(next)) = self.items.get(at + 1) {
            return format!("starts step {}", self.program.step_name(next.turn.step));
        }
        let again = before.starts_with('0') && entries.starts_with('1');
        match entries.len().cmp(&before.len()) {
            std::cmp::Ordering::Greater => "begins a Fix",
            std::cmp::Ordering::Less => "ends a Fix, since nothing changed",
            std::cmp::Ordering::Equal if again => "repeats a Fix, since something changed",
            std::cmp::Ordering::Equal => "goes on",
        }
        .to_string()
    }

    /// Whether a value is one that a line can be drawn of.
    pub fn is_number(&self, place: Place) -> bool {
        self.type_of(place) <= BOOL
    }
}
