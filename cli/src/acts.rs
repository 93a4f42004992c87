//! The acts of a run: what each command does, in words, with the reads that the values on its stack were computed from.

use crate::lines::{Tagged, Turn};
use crate::program::{FIRST_LOCAL, INT};
use crate::story::{Event, How, Mark, Story};
use std::collections::HashMap;

/// What is known of an instance while it goes through a step.
#[derive(Default)]
pub struct Seat {
    stack: Vec<Tagged>,
    /// For each value on the stack the turns of the reads that it was computed from.
    from: Vec<Vec<usize>>,
    locals: HashMap<usize, Vec<usize>>,
    /// The if bodies that it is in: the position after each, and the reads of the condition.
    within: Vec<(usize, Vec<usize>)>,
}

impl Story<'_> {
    /// A turn in words; the seat is left as it is after it.
    pub fn event(&mut self, turn: Box<Turn>, seat: &mut Seat) -> Event {
        let step = self.program.step(turn.structure, turn.step);
        let statement = step.and_then(|step| step.statements.get(turn.position)).cloned().unwrap_or_default();
        let command = turn.command.clone();
        let words: Vec<&str> = command.split(' ').collect();
        let operand = words.get(1).and_then(|word| word.parse::<usize>().ok()).unwrap_or(0);
        let top = turn.stack.last().copied().unwrap_or((INT, 0));
        let mut event = Event {
            mark: Mark::Other,
            says: String::new(),
            command: command.clone(),
            statement,
            uses: Vec::new(),
            turn,
        };
        match words[0] {
            "push" => self.push(&mut event, seat, top),
            "rd" => self.read(&mut event, seat, operand, top),
            "wr" => self.write(&mut event, seat, operand),
            "if" => decide(&mut event, seat, operand),
            "not" => event.says = format!("not {} is {}", self.shown(seat.top(1)), self.shown(top)),
            "op" => self.operate(&mut event, seat, operand, top),
            "cons" => self.make(&mut event, seat, operand),
            _ => {}
        }
        seat.stack.clone_from(&event.turn.stack);
        event
    }

    fn push(&self, event: &mut Event, seat: &mut Seat, top: Tagged) {
        let this = event.command == "push this";
        let top = self.shown(top);
        event.says =
            if this { format!("puts this, which is {top}, on its stack") } else { format!("puts {top} on its stack") };
        event.command = if this { "push this".to_string() } else { format!("push {top}") };
        seat.from.push(Vec::new());
    }

    fn read(&self, event: &mut Event, seat: &mut Seat, variable: usize, top: Tagged) {
        let turn = &event.turn;
        let mut from = seat.from.pop().unwrap_or_default();
        if variable >= FIRST_LOCAL {
            let name = self.local(turn, variable);
            event.says = format!("looks up its local {name}: {}", self.shown(top));
            event.command = format!("rd {name}");
            from = seat.locals.get(&variable).cloned().unwrap_or_default();
        } else {
            let place = (seat.top(1).1 as usize, variable);
            event.mark = Mark::Read(place, top.1);
            event.says = format!("reads {}: {}", self.at(place), self.shown(top));
            event.command = format!("rd {}", self.parameter(place));
            from = join(&from, &[turn.turn]);
        }
        seat.from.push(from);
    }

    fn write(&mut self, event: &mut Event, seat: &mut Seat, variable: usize) {
        let turn = &event.turn;
        let from = join(&seat.from.pop().unwrap_or_default(), &seat.from.pop().unwrap_or_default());
        let place = (seat.top(1).1 as usize, variable);
        if variable >= FIRST_LOCAL {
            let name = self.local(turn, variable);
            event.says = format!("sets its local {name} to {}", self.shown(seat.top(2)));
            event.command = format!("wr {name}");
            seat.locals.insert(variable, from);
            return;
        }
        event.command = format!("wr {}", self.parameter(place));
        match turn.wrote {
            None => {
                event.mark = Mark::Dropped;
                event.says = format!("writes {}: dropped, since null instances keep their values", self.at(place));
            }
            Some((place, old, new)) => {
                event.mark = Mark::Write(place, old, new);
                event.says =
                    format!("writes {}: {} → {}", self.at(place), self.value(place, old), self.value(place, new));
                event.uses = seat.rests_on(&from);
            }
        }
    }

    fn operate(&self, event: &mut Event, seat: &mut Seat, operator: usize, top: Tagged) {
        let sign = sign(operator);
        let (left, right) = (self.shown(seat.top(2)), self.shown(seat.top(1)));
        event.says = format!("works out {left} {sign} {right} = {}", self.shown(top));
        event.command = format!("op {sign}");
        let from = join(&seat.from.pop().unwrap_or_default(), &seat.from.pop().unwrap_or_default());
        seat.from.push(from);
    }

    fn make(&mut self, event: &mut Event, seat: &mut Seat, structure: usize) {
        let label = self.kinds.len();
        let count = self.program.structs.get(structure).map_or(0, |s| s.parameters.len()).min(seat.stack.len());
        let values = seat.stack[seat.stack.len() - count..].iter().map(|(_, value)| *value).collect();
        let from = seat.from.split_off(seat.from.len().saturating_sub(count)).concat();
        self.kinds.push(structure);
        self.first.push(values);
        self.born.insert(label, event.turn.turn);
        event.mark = Mark::Make(label);
        event.says = format!("makes {}", self.name(label));
        event.command = format!("cons {}", self.program.structs.get(structure).map_or("?", |s| &s.name));
        event.uses = seat.rests_on(&join(&from, &[]));
        seat.from.push(Vec::new());
    }
}

impl Seat {
    /// The seat before a command at a position: empty at a step's first command, and out of the if bodies that end before it.
    pub fn come_to(&mut self, position: usize) {
        if position == 0 {
            *self = Seat::default();
        }
        self.within.retain(|(end, _)| *end > position);
    }

    /// The value that many from the top of the stack.
    fn top(&self, from_top: usize) -> Tagged {
        self.stack.len().checked_sub(from_top).map_or((INT, 0), |i| self.stack[i])
    }

    /// The reads that an act rests on: those of its values, and those of the ifs around it.
    fn rests_on(&self, from: &[usize]) -> Vec<(usize, How)> {
        let choices = self.within.iter().fold(Vec::new(), |all, (_, reads)| join(&all, reads));
        let choices = choices.into_iter().filter(|read| !from.contains(read)).map(|read| (read, How::Choice));
        from.iter().map(|&read| (read, How::Value)).chain(choices).collect()
    }
}

/// Two lists of turns as one, in order and without repeats.
fn join(one: &[usize], other: &[usize]) -> Vec<usize> {
    let mut all = [one, other].concat();
    all.sort_unstable();
    all.dedup();
    all
}

/// An operator's sign, by its byte.
pub fn sign(operator: usize) -> &'static str {
    const SIGNS: [&str; 13] = ["=", "≠", "≤", "≥", "<", ">", "×", "/", "%", "+", "−", "and", "or"];
    operator.checked_sub(32).and_then(|i| SIGNS.get(i)).copied().unwrap_or("?")
}

/// `if n`: the body's commands follow, or are left out.
fn decide(event: &mut Event, seat: &mut Seat, length: usize) {
    let from = seat.from.pop().unwrap_or_default();
    let yes = seat.stack.last().is_some_and(|(_, value)| *value != 0);
    event.mark = Mark::If(yes);
    event.says =
        if yes { "decides: true, goes on with the body" } else { "decides: false, leaves out the body" }.to_string();
    event.uses = from.iter().map(|&read| (read, How::Value)).collect();
    if yes {
        seat.within.push((event.turn.position + length + 1, from));
    }
}
