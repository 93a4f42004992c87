//! The command list of a program and its depth, from 000's definition 2:
//! ifs made flat, depth over every way through them.
use super::{Cmd, Value, stats};
use crate::generator::Source;

fn text(command: &Cmd, out: &mut Vec<String>) {
    out.push(match command {
        Cmd::Push(Value::Int(number)) => format!("push 0 {number}"),
        Cmd::Push(Value::Nat(number)) => format!("push 1 {number}"),
        Cmd::Push(Value::Bool(value)) => format!("push 2 {}", u8::from(*value)),
        // A label is pushed as a null: label k of struct k.
        Cmd::Push(Value::Label(label)) => format!("push {} {label}", 16 + label),
        Cmd::This => "push this".into(),
        Cmd::Rd(variable) => format!("rd {variable}"),
        Cmd::Wr(variable) => format!("wr {variable}"),
        Cmd::Cons(structure) => format!("cons {structure}"),
        Cmd::Not => "not".into(),
        Cmd::Op(byte) => format!("op {byte}"),
        Cmd::If(body) => {
            let mut inside = Vec::new();
            body.iter().for_each(|command| text(command, &mut inside));
            out.push(format!("if {}", inside.len()));
            out.extend(inside);
            return;
        }
    });
}

/// The greatest height from here, over both ways through each if.
fn height(commands: &[Cmd], now: usize, structs: &[Vec<u8>]) -> usize {
    let Some((first, rest)) = commands.split_first() else {
        return now;
    };
    let after = match first {
        Cmd::Push(_) | Cmd::This => now + 1,
        Cmd::Rd(_) | Cmd::Not => now,
        Cmd::Wr(_) => now - 2,
        Cmd::Op(_) => now - 1,
        Cmd::Cons(structure) => now + 1 - structs[usize::from(*structure)].len(),
        Cmd::If(body) => {
            let taken = [body, rest].concat();
            return now.max(height(&taken, now - 1, structs)).max(height(rest, now - 1, structs));
        }
    };
    now.max(height(rest, after, structs))
}

/// Every command as text, steps in the list's order, and the depth.
pub fn listed(source: &Source) -> (Vec<String>, usize) {
    let (mut lines, mut depth) = (Vec::new(), 0);
    for (structure, own) in source.steps.iter().enumerate() {
        for (name, statements) in own {
            let commands = stats(statements);
            depth = depth.max(height(&commands, 0, &source.structs));
            let mut texts = Vec::new();
            commands.iter().for_each(|command| text(command, &mut texts));
            let line = |(at, text)| format!("{structure} {name} {at} {text}");
            lines.extend(texts.into_iter().enumerate().map(line));
        }
    }
    (lines, depth)
}
