//! `text_image [--bare]` reads program text on its standard input and writes
//! its image to its standard output; after a refusal it writes nothing there
//! and `refused N` to its standard error.

use std::io::{self, Read, Write};
use std::process::ExitCode;
use text::{read, read_bare};

const IMAGE_BYTES: usize = 32_768;
const BLOCK: usize = 512;

fn image(bare: bool) -> io::Result<()> {
    let mut text = Vec::new();
    io::stdin().lock().read_to_end(&mut text)?;
    let mut output = vec![0; IMAGE_BYTES];
    let reader = if bare { read_bare } else { read };
    let answer = reader(&text, &mut output);
    if answer.number != 0 {
        return Err(io::Error::other(format!("refused {}", answer.number)));
    }
    io::stdout().write_all(&output[..BLOCK * answer.blocks])
}

fn main() -> ExitCode {
    let words: Vec<String> = std::env::args().skip(1).collect();
    let done = match words.as_slice() {
        [] => image(false),
        [word] if word == "--bare" => image(true),
        _ => Err(io::Error::other("text_image [--bare] < TEXT > IMAGE")),
    };
    match done {
        Ok(()) => ExitCode::SUCCESS,
        Err(error) => {
            eprintln!("{error}");
            ExitCode::FAILURE
        }
    }
}
