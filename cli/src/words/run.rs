//! `audala run`: a run, and its last table.

use crate::acting;
use crate::args::{Options, Word};
use crate::engine;
use crate::numbers::{self, STOPS};
use crate::program::{Program, refused};
use crate::progress::Progress;
use crate::report::{Answer, DONE, Failure, STOPPED};
use crate::tables::Table;
use crate::words::check::count;
use crate::words::table::write;

pub const WORD: Word = Word {
    name: "run",
    summary: "runs a program on a table",
    help: "audala run PROGRAM TABLE [TURNS] [-o FILE] [--form image|text]\n\n\
        Runs a program on a table and shows the last table. Where the run stops with 33, 34 or 35 the table\n\
        is the one up to there, and the status is 2.\n\n\
        Turns, joined in the order in which they are given; without any, zeros until the run ends, at most 65536:\n\
        \x20 --turns LIST       bytes such as 0,1,2; 100x0,1,2 is so many times those; parts are joined with +\n\
        \x20 --random SEED N    N bytes of a seed\n\
        \x20 --acting LABELS    labels that are to act one after the other, such as 3,3,4; they are turned into bytes\n\
        \x20 --turns-file FILE  the bytes of a file as they are\n\n\
        \x20 -o, --output FILE  write the last table to a file\n\
        \x20 --form FORM        the form of that file: image, which is the default, or text\n\
        \x20 --plain            the lines number, turns, blocks, depth, holding, then for each record: record LABEL STRUCT VALUES\n",
    options: &["--output", "--form", "--turns", "--random", "--acting", "--turns-file"],
    files: (2, 2),
    act,
};

fn act(options: &Options) -> Result<Answer, Failure> {
    let program = Program::load(&options.files[0])?;
    let table = Table::load(&program, &options.files[1])?;
    let _progress = Progress::begin("running");
    let turns = acting::bytes(&program, &table, &options.turns)?;
    let (report, image) = engine::run(&program.image, &table.image, &turns);
    if report.number != 0 && !STOPS.contains(&report.number) {
        return Err(refused("turns", report.number, None));
    }
    let last = Table::of_run(&program, image);
    if let Some(output) = &options.output {
        write(&program, &last, output, options.form)?;
    }
    let out = if options.plain { plain(&program, &report, &last) } else { human(&program, &report, &last) };
    let status = if report.number == 0 { DONE } else { STOPPED };
    Ok(Answer { out: out.into_bytes(), status })
}

fn plain(program: &Program, report: &engine::Report, last: &Table) -> String {
    let engine::Report { number, turns, blocks, depth, holding } = *report;
    let mut out = format!("number {number}\nturns {turns}\nblocks {blocks}\ndepth {depth}\nholding {holding}\n");
    last.text(program).lines().for_each(|line| out += &format!("record {line}\n"));
    out
}

fn human(program: &Program, report: &engine::Report, last: &Table) -> String {
    let turns = count(report.turns, "turn");
    let mut out = if report.number == 0 {
        format!("The run ended after {turns}. Its last table:\n")
    } else {
        let holding = format!("{} commands", if report.holding == 1 { "1 instance holds" } else { "instances hold" });
        let holding = if report.holding == 1 { holding } else { format!("{} {holding}", report.holding) };
        format!(
            "The run stopped with {} after {turns}: {}; {holding}.\n",
            report.number,
            numbers::meaning(report.number)
        )
    };
    if report.number != 0 {
        numbers::hints(report.number).iter().for_each(|hint| out += &format!("  {hint}\n"));
        out += "The table so far:\n";
    }
    out + &last.named(program)
}
