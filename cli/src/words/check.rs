//! `audala check`: whether a program, and a table for it, are accepted.

use crate::args::{Options, Word};
use crate::program::{Program, shown};
use crate::report::{Answer, Failure};
use crate::tables::Table;

pub const WORD: Word = Word {
    name: "check",
    summary: "says whether a program, and a table for it, are accepted",
    help: "audala check PROGRAM [TABLE]\n\n\
        Checks a program, text or image, and a table for it. Where one is refused, the number, what it means\n\
        and the place, where one is known, are on standard error, and the status is 1.\n\n\
        \x20 --plain  the lines number, structs, steps, commands, depth; with a table also records\n",
    options: &[],
    files: (1, 2),
    act,
};

fn act(options: &Options) -> Result<Answer, Failure> {
    let program = Program::load(&options.files[0])?;
    let table = options.files.get(1).map(|file| Table::load(&program, file)).transpose()?;
    let v = program.verdict;
    if options.plain {
        let mut out =
            format!("number 0\nstructs {}\nsteps {}\ncommands {}\ndepth {}\n", v.structs, v.steps, v.commands, v.depth);
        if let Some(table) = table {
            out += &format!("records {}\n", table.records.len());
        }
        return Ok(Answer::done(out));
    }
    let counts = [count(v.structs, "struct"), count(v.steps, "step"), count(v.commands, "command")].join(", ");
    let mut out = format!("{}: accepted: {counts}, stack depth {}\n", shown(&program.file), v.depth);
    if let Some(table) = table {
        out += &format!("{}: accepted: {}\n", shown(&options.files[1]), count(table.records.len() as u32, "record"));
    }
    Ok(Answer::done(out))
}

/// A number of things in words.
pub fn count(number: u32, thing: &str) -> String {
    format!("{number} {thing}{}", if number == 1 { "" } else { "s" })
}
