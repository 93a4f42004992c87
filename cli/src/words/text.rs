//! `audala text`: the image of a program text.

use crate::args::{Options, Word, misuse};
use crate::engine;
use crate::files;
use crate::program::{self, refused};
use crate::report::{Answer, Failure};
use std::io::IsTerminal;

pub const WORD: Word = Word {
    name: "text",
    summary: "turns a program text into its image",
    help: "audala text PROGRAM [-o IMAGE]\n\n\
        Reads a program text, checks the program and writes its image, blocks of 512 bytes, to IMAGE or to\n\
        standard output. A program that is refused is not written. An image is checked and written as it is.\n\n\
        \x20 -o, --output IMAGE  the file to write\n\
        \x20 --plain             with -o, the lines: number, blocks\n",
    options: &["--output"],
    files: (1, 1),
    act,
};

fn act(options: &Options) -> Result<Answer, Failure> {
    let (image, _) = program::read(&options.files[0])?;
    let number = engine::check(&image).number;
    if number != 0 {
        return Err(refused(&options.files[0], number, None));
    }
    let blocks = image.len() / 512;
    match &options.output {
        None if std::io::stdout().is_terminal() => {
            Err(misuse(&WORD, "an image is not for a terminal: name a file with -o".to_string()))
        }
        None => Ok(Answer::done(image)),
        Some(output) => {
            files::write(output, &image)?;
            Ok(Answer::done(if options.plain {
                format!("number 0\nblocks {blocks}\n")
            } else {
                format!("{output}: {blocks} block{} of 512 bytes\n", if blocks == 1 { "" } else { "s" })
            }))
        }
    }
}
