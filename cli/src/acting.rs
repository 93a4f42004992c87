//! Labels that are to act, as turn bytes (01 and 02 §5): the byte e picks the (e modulo R)th of the R holders, counted from the label after the one that acted
//! last. Who holds commands is seen in the library's trace: where a step begins, by a round of zeros after the turns so far, and from then on by each turn's
//! position. Bytes are guessed for many labels at once, each time for twice as many, and kept as far as the trace has those labels.

use crate::engine;
use crate::lines::{Line, Turn, lines};
use crate::numbers::meaning;
use crate::program::{BOOL, Program};
use crate::report::{Failure, Refusal};
use crate::tables::Table;
use crate::turns::{Part, zeros};

/// Turns that a run takes at most, and the number where there are more; instances that there are at most, so that as many zeros are a whole round.
const MOST_TURNS: usize = 65_536;
const TOO_MANY_TURNS: u32 = 14;
const MOST_INSTANCES: usize = 256;

/// The number of a run whose turns are used up.
const OUT_OF_TURNS: u32 = 33;

/// Labels that are guessed at first.
const FIRST_GUESS: usize = 64;

/// An instance that holds commands: the step that it runs, the position of its next command, and the Bool on top of its stack, where one is known.
#[derive(Debug, Clone, Copy)]
struct Holder {
    label: usize,
    step: (usize, usize),
    next: usize,
    top: Option<bool>,
}

/// The holders in the order in which bytes pick them.
type Order = Vec<Holder>;

/// The bytes of all parts; zeros where there is none.
pub fn bytes(program: &Program, table: &Table, parts: &[Part]) -> Result<Vec<u8>, Failure> {
    if parts.is_empty() {
        return Ok(zeros());
    }
    let mut run = Run { program, table: &table.image, bytes: Vec::new(), seen: 0 };
    for part in parts {
        match part {
            Part::Bytes(more) => run.bytes.extend_from_slice(more),
            Part::Acting(labels) => run.act(labels)?,
        }
    }
    Ok(run.bytes)
}

struct Run<'r> {
    program: &'r Program,
    table: &'r [u8],
    /// The turns so far.
    bytes: Vec<u8>,
    /// How much of the trace's text was gone through, up to the end of a turn's line.
    seen: u64,
}

impl Run<'_> {
    /// Adds a byte for each label, up to the run's end or stop.
    fn act(&mut self, labels: &[usize]) -> Result<(), Failure> {
        let Some(mut order) = self.resume()? else { return Ok(()) };
        let (mut done, mut chunk) = (0, FIRST_GUESS);
        while done < labels.len() {
            if order.is_empty() {
                match self.begun(&self.bytes)? {
                    Some(begun) => order = begun,
                    None => return Ok(()),
                }
            }
            let tried = self.guess(order.clone(), &labels[done..labels.len().min(done + chunk)]);
            if tried.is_empty() {
                return Err(missing(&order, self.bytes.len(), labels[done]));
            }
            let kept = self.follow(&mut order, &tried, &labels[done..]);
            if kept == 0 {
                self.bytes.push(tried[0]);
                return Ok(());
            }
            chunk = if kept == tried.len() { MOST_TURNS.min(2 * chunk) } else { FIRST_GUESS };
            done += kept;
        }
        Ok(())
    }

    /// Bytes for labels, as far as they seem to hold commands in this step. An `if` whose condition is not known yet is taken to be met.
    fn guess(&self, mut order: Order, labels: &[usize]) -> Vec<u8> {
        let mut tried = Vec::new();
        for label in labels.iter().take((MOST_TURNS.saturating_sub(self.bytes.len())).max(1)) {
            let Some(at) = order.iter().position(|holder| holder.label == *label) else { break };
            tried.push(at as u8);
            self.pass(&mut order, at, None);
        }
        tried
    }

    /// The order after a turn of the holder at a place, with the Bool that is on top of its stack then.
    fn pass(&self, order: &mut Order, at: usize, top: Option<bool>) {
        order.rotate_left(at + 1);
        let Some(holder) = order.last_mut() else { return };
        let commands = self.program.step(holder.step.0, holder.step.1).map_or(&[][..], |step| &step.commands);
        let body = commands.get(holder.next).and_then(|command| command.strip_prefix("if ")?.parse::<usize>().ok());
        holder.next += 1 + body.filter(|_| holder.top == Some(false)).unwrap_or(0);
        holder.top = top;
        if holder.next >= commands.len() {
            order.pop();
        }
    }

    /// Keeps bytes as far as the trace has the labels that are wanted, up to the step's end. How many are kept; none where the first command is refused.
    fn follow(&mut self, order: &mut Order, tried: &[u8], wanted: &[usize]) -> usize {
        let (mut kept, mut length) = (0, 0);
        for (line, bytes) in self.after(&self.bytes, tried) {
            length += bytes;
            let Line::Turn(turn) = line else { continue };
            let at = order.iter().position(|holder| holder.label == turn.label);
            let Some(at) = at.filter(|_| turn.label == wanted[kept]) else { break };
            self.pass(order, at, top(&turn));
            self.bytes.push(tried[kept]);
            self.seen += std::mem::take(&mut length);
            kept += 1;
            if order.is_empty() {
                break;
            }
        }
        kept
    }

    /// The lines after those that were gone through, with their lengths, where more turns come after some.
    fn after(&self, bytes: &[u8], more: &[u8]) -> Vec<(Line, u64)> {
        let turns = [bytes, more].concat();
        let text = engine::trace_from(&self.program.image, self.table, &turns, self.seen, more.len());
        let lengths = text.split_inclusive(|&b| b == b'\n').map(|line| line.len() as u64);
        lines(&text).map_or(Vec::new(), |(lines, _, _)| lines.into_iter().zip(lengths).collect())
    }

    /// The order after the turns so far, from the beginning of their last step on; none where the run has ended or stopped.
    fn resume(&mut self) -> Result<Option<Order>, Failure> {
        let (report, _) = engine::run(&self.program.image, self.table, &self.bytes);
        match report.number {
            OUT_OF_TURNS => {}
            0 | 34.. => return Ok(None),
            number => return Err(refused(self.bytes.len(), meaning(number))),
        }
        self.seen = 0;
        let found = self.after(&self.bytes, &[]);
        let moved = found.iter().rposition(|(line, _)| matches!(line, Line::Move(_))).map_or(0, |at| at + 1);
        let turns = |lines: &[(Line, u64)]| lines.iter().filter(|(line, _)| matches!(line, Line::Turn(_))).count();
        let begun = self.bytes[..turns(&found[..moved])].to_vec();
        let Some(mut order) = self.begun(&begun)? else { return Ok(None) };
        for (line, _) in &found[moved..] {
            if let Line::Turn(turn) = line {
                let at = order.iter().position(|holder| holder.label == turn.label).unwrap_or(0);
                self.pass(&mut order, at, top(turn));
            }
        }
        self.seen = found.iter().map(|(_, length)| length).sum();
        Ok(Some(order))
    }

    /// The order where a step begins after these turns, by a round of zeros; where a command on the way is refused, by each byte alone.
    fn begun(&self, bytes: &[u8]) -> Result<Option<Order>, Failure> {
        let room = MOST_TURNS.saturating_sub(bytes.len()).min(MOST_INSTANCES);
        if room == 0 {
            return Err(refused(bytes.len(), meaning(TOO_MANY_TURNS)));
        }
        let (round, whole) = self.round(bytes, &vec![0; room]);
        if whole || round.is_empty() && engine::run(&self.program.image, self.table, bytes).0.number == 0 {
            return Ok(Some(round).filter(|round| !round.is_empty()));
        }
        let (report, _) = engine::run(&self.program.image, self.table, bytes);
        let alone = |byte: u32| self.round(bytes, &[byte as u8]).0.first().copied();
        let order: Option<Order> = (0..report.holding).map(alone).collect();
        let cause = "a command is refused there, so that who holds commands cannot be seen";
        order.map(Some).ok_or_else(|| refused(bytes.len(), cause))
    }

    /// Those who act after these turns, up to one that acts again or a move of the schedule, and whether it came to that.
    fn round(&self, bytes: &[u8], more: &[u8]) -> (Order, bool) {
        let mut round: Order = Vec::new();
        for (line, _) in self.after(bytes, more) {
            let turn = match line {
                Line::Turn(turn) if turn.turn < bytes.len() => continue,
                Line::Turn(turn) => turn,
                Line::Move(_) if round.is_empty() => continue,
                Line::Move(_) => return (round, true),
            };
            if round.iter().any(|holder| holder.label == turn.label) {
                return (round, true);
            }
            let step = (turn.structure, turn.step);
            round.push(Holder { label: turn.label, step, next: turn.position, top: None });
        }
        let whole = round.len() == MOST_INSTANCES;
        (round, whole)
    }
}

/// The Bool on top of a stack.
fn top(turn: &Turn) -> Option<bool> {
    turn.stack.last().filter(|(of, _)| *of == BOOL).map(|(_, value)| *value != 0)
}

/// Why a label has no byte.
fn missing(order: &Order, turn: usize, label: usize) -> Failure {
    let mut others: Vec<usize> = order.iter().map(|holder| holder.label).collect();
    others.sort_unstable();
    let others: Vec<String> = others.iter().map(usize::to_string).collect();
    refused(turn, &format!("label {label} holds no commands; those that do: {}", others.join(", ")))
}

fn refused(turn: usize, cause: &str) -> Failure {
    let cause = format!("turn {turn}: {cause}");
    Failure::Refused(Box::new(Refusal {
        file: "--acting".to_string(),
        number: None,
        cause,
        spot: None,
        hints: Vec::new(),
    }))
}
