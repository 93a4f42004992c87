//! `audala names`: the names of a program text with their numbers.

use crate::args::{Options, Word, misuse};
use crate::names::{NamedStruct, names};
use crate::program::{FIRST_LOCAL, Program};
use crate::report::{Answer, Failure};

pub const WORD: Word = Word {
    name: "names",
    summary: "prints the names of a program text with their numbers",
    help: "audala names PROGRAM\n\n\
        Prints structs, parameters, steps and locals with the numbers that images, tables and traces have for\n\
        them (docs/FORMAT.md, 'Names and numbers'). An image has no names.\n\n\
        \x20 --plain  the lines: struct NUMBER NAME; parameter STRUCT NUMBER NAME TYPE; step STRUCT NUMBER NAME;\n\
        \x20          local STRUCT STEP NUMBER NAME TYPE\n",
    options: &[],
    files: (1, 1),
    act,
};

fn act(options: &Options) -> Result<Answer, Failure> {
    let program = Program::load(&options.files[0])?;
    let Some(source) = &program.source else {
        return Err(misuse(&WORD, format!("{} is an image, and an image has no names", program.file)));
    };
    let mut out = String::new();
    if let Some(names) = names(source) {
        for (k, structure) in names.structs.iter().enumerate() {
            out += &if options.plain { plain(k, structure, &names.steps) } else { human(k, structure, &names.steps) };
        }
    }
    Ok(Answer::done(out))
}

fn plain(k: usize, structure: &NamedStruct, steps: &[String]) -> String {
    let mut out = format!("struct {k} {}\n", structure.name);
    for (p, (name, of)) in structure.parameters.iter().enumerate() {
        out += &format!("parameter {k} {p} {name} {of}\n");
    }
    for step in &structure.steps {
        out += &format!("step {k} {} {}\n", step.number, steps[step.number]);
        for (i, (name, of)) in step.locals.iter().enumerate() {
            out += &format!("local {k} {} {} {name} {of}\n", step.number, FIRST_LOCAL + i);
        }
    }
    out
}

fn human(k: usize, structure: &NamedStruct, steps: &[String]) -> String {
    let mut out = format!("struct {k}: {}\n", structure.name);
    for (p, (name, of)) in structure.parameters.iter().enumerate() {
        out += &format!("  parameter {p}: {name}, {of}\n");
    }
    for step in &structure.steps {
        out += &format!("  step {}: {}\n", step.number, steps[step.number]);
        for (i, (name, of)) in step.locals.iter().enumerate() {
            out += &format!("    local {}: {name}, {of}\n", FIRST_LOCAL + i);
        }
    }
    out
}
