//! `audala table`: a table shown, or converted between its text and its image.

use crate::args::{Form, Options, Word};
use crate::files;
use crate::program::Program;
use crate::report::{Answer, Failure};
use crate::tables::Table;
use crate::words::check::count;

pub const WORD: Word = Word {
    name: "table",
    summary: "shows a table, or converts it between text and image",
    help: "audala table PROGRAM TABLE [-o FILE] [--form image|text]\n\n\
        Shows a table, text or image, with the program's names, or writes it to a file in either form.\n\
        A text has a line for each record: label, struct, and a value for each parameter (docs/FORMAT.md,\n\
        'Tables as text'); it has at most 65535 bytes, and its numbers are at most 4294967295.\n\n\
        \x20 -o, --output FILE  the file to write, instead of showing the table\n\
        \x20 --form FORM        the form of that file: image, which is the default, or text\n\
        \x20 --plain            the table as text, a line for each record; with -o, the lines: number, records\n",
    options: &["--output", "--form"],
    files: (2, 2),
    act,
};

fn act(options: &Options) -> Result<Answer, Failure> {
    let program = Program::load(&options.files[0])?;
    let table = Table::load(&program, &options.files[1])?;
    let Some(output) = &options.output else {
        return Ok(Answer::done(if options.plain { table.text(&program) } else { table.named(&program) }));
    };
    write(&program, &table, output, options.form)?;
    let records = table.records.len();
    Ok(Answer::done(if options.plain {
        format!("number 0\nrecords {records}\n")
    } else {
        format!("{output}: {}\n", count(records as u32, "record"))
    }))
}

/// Writes a table in a form.
pub fn write(program: &Program, table: &Table, output: &str, form: Form) -> Result<(), Failure> {
    match form {
        Form::Image => files::write(output, &table.image),
        Form::Text => files::write(output, table.text(program).as_bytes()),
    }
}
