//! `texts SEED COUNT [--bare] [--answers]` prints cases as lines `text OUTLEN
//! HEX`, or the answers to them as lines `text N B D`: number, blocks and
//! FNV-1a digest of the whole output, in hexadecimal, which was filled with
//! bytes 0xa5 before the call. `texts --of-cases [--bare]` answers the cases
//! on its standard input. An empty text is written as `-`.

use std::io::{self, BufRead, BufWriter, Write};
use std::process::ExitCode;
use text::generate::{answer, case};

const USAGE: &str = "texts SEED COUNT [--bare] [--answers] | texts --of-cases [--bare]";

fn hexadecimal(bytes: &[u8]) -> String {
    if bytes.is_empty() {
        return "-".to_string();
    }
    bytes.iter().map(|byte| format!("{byte:02x}")).collect()
}

fn bytes(hexadecimal: &str) -> Option<Vec<u8>> {
    if hexadecimal == "-" {
        return Some(Vec::new());
    }
    let pairs = hexadecimal.as_bytes().chunks(2);
    pairs.map(|pair| u8::from_str_radix(std::str::from_utf8(pair).ok()?, 16).ok()).collect()
}

fn answer_line(text: &[u8], output: usize, bare: bool) -> String {
    let (answer, digest) = answer(text, output, bare);
    format!("text {} {} {digest:016x}", answer.number, answer.blocks)
}

fn print_generated(seed: u64, count: u64, bare: bool, answers: bool) -> io::Result<()> {
    let mut out = BufWriter::new(io::stdout().lock());
    for index in 0..count {
        let case = case(seed, index, bare);
        if answers {
            writeln!(out, "{}", answer_line(&case.text, case.output, bare))?;
        } else {
            writeln!(out, "text {} {}", case.output, hexadecimal(&case.text))?;
        }
    }
    out.flush()
}

fn line_of_case(line: &str, bare: bool) -> Option<String> {
    let mut fields = line.split(' ');
    let ("text", output, hexadecimal) = (fields.next()?, fields.next()?, fields.next()?) else {
        return None;
    };
    Some(answer_line(&bytes(hexadecimal)?, output.parse().ok()?, bare))
}

fn print_of_cases(bare: bool) -> io::Result<()> {
    let mut out = BufWriter::new(io::stdout().lock());
    for line in io::stdin().lock().lines() {
        let answer = line_of_case(&line?, bare).ok_or(io::ErrorKind::InvalidData)?;
        writeln!(out, "{answer}")?;
    }
    out.flush()
}

fn main() -> ExitCode {
    let (flags, numbers): (Vec<String>, Vec<String>) =
        std::env::args().skip(1).partition(|argument| argument.starts_with("--"));
    let has = |flag: &str| flags.iter().any(|given| given == flag);
    let parsed: Option<Vec<u64>> = numbers.iter().map(|number| number.parse().ok()).collect();
    let done = match parsed.as_deref() {
        Some([]) if has("--of-cases") => print_of_cases(has("--bare")),
        Some(&[seed, count]) => print_generated(seed, count, has("--bare"), has("--answers")),
        _ => Err(io::Error::new(io::ErrorKind::InvalidInput, USAGE)),
    };
    match done {
        Ok(()) => ExitCode::SUCCESS,
        Err(error) => {
            eprintln!("{error}");
            ExitCode::FAILURE
        }
    }
}
