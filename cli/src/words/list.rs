//! `audala list`: the commands of a program, with names where it came as text.

use crate::acts::sign;
use crate::args::{Options, Word};
use crate::engine;
use crate::program::{BOOL, FIRST_LOCAL, FIRST_STRUCT, Program, Step};
use crate::report::{Answer, Failure};
use crate::words::check::count;

pub const WORD: Word = Word {
    name: "list",
    summary: "lists the commands of a program",
    help: "audala list PROGRAM\n\n\
        Lists the commands of each step, after the statement that they belong to where the program is a text.\n\n\
        \x20 --plain  the listing of docs/FORMAT.md: structs, steps, commands and depth, then a line for each\n\
        \x20          command: struct, step, position, command\n",
    options: &[],
    files: (1, 1),
    act,
};

fn act(options: &Options) -> Result<Answer, Failure> {
    let program = Program::load(&options.files[0])?;
    if options.plain {
        return Ok(Answer::done(engine::listing(&program.image)));
    }
    let v = program.verdict;
    let counts = [count(v.structs, "struct"), count(v.steps, "step"), count(v.commands, "command")].join(", ");
    let mut out = format!("{counts}, stack depth {}\n", v.depth);
    for step in &program.steps {
        let title = format!("{}.{}", program.structs[step.structure].name, program.step_name(step.number));
        out += &format!("\n{title}: {}\n", count(step.commands.len() as u32, "command"));
        out += &commands(&program, step);
    }
    Ok(Answer::done(out))
}

/// The commands of a step, a line each, and a line before each statement's.
fn commands(program: &Program, step: &Step) -> String {
    let mut out = String::new();
    let mut reached = None;
    for (position, command) in step.commands.iter().enumerate() {
        let statement = step.statements.get(position);
        if statement.is_some() && (position == 0 || statement != step.statements.get(position - 1)) {
            out += &format!("  {}\n", statement.map_or("", String::as_str));
        }
        let (shown, next) = named(program, step, command, reached);
        reached = next;
        out += &format!("    {position:>2}  {shown}\n");
    }
    out
}

/// A command with names, and the struct that a path has reached after it. Paths are `push this`, then `rd` of each variable, so that each tells the next.
fn named(program: &Program, step: &Step, command: &str, reached: Option<usize>) -> (String, Option<usize>) {
    let words: Vec<&str> = command.split(' ').collect();
    let operand = words.get(1).and_then(|word| word.parse::<usize>().ok()).unwrap_or(0);
    match words[0] {
        "push" if words[1..] == ["this"] => (command.to_string(), Some(step.structure)),
        "push" => (literal(program, operand as u8, words.get(2).copied().unwrap_or("")), None),
        "rd" | "wr" => {
            let (name, of) = variable(program, step, reached, operand);
            let next = of.and_then(|of| of.checked_sub(FIRST_STRUCT)).map(usize::from);
            (format!("{} {name}", words[0]), next)
        }
        "op" => (format!("op {}", sign(operand)), None),
        "cons" => (format!("cons {}", program.structs[operand].name), None),
        _ => (command.to_string(), None),
    }
}

/// The name and the type of a variable, as far as they are known.
fn variable(program: &Program, step: &Step, reached: Option<usize>, number: usize) -> (String, Option<u8>) {
    if let Some(local) = number.checked_sub(FIRST_LOCAL) {
        return (step.local(number), step.locals.get(local).map(|local| local.of));
    }
    let parameter = reached.and_then(|k| program.structs.get(k)).and_then(|s| s.parameters.get(number));
    parameter.map_or((number.to_string(), None), |p| (p.name.clone(), Some(p.of)))
}

fn literal(program: &Program, of: u8, value: &str) -> String {
    match of {
        BOOL => format!("push {}", if value == "0" { "false" } else { "true" }),
        _ if of >= FIRST_STRUCT => format!("push null {}", program.type_name(of)),
        _ => format!("push {} {value}", program.type_name(of)),
    }
}
