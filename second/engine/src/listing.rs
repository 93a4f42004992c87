//! The listing program's output for a program image (01, "Bench rows").

use crate::program::Program;
use std::fmt;

/// What the listing program prints when this is its standard input.
pub fn listing(image: &[u8]) -> Vec<u8> {
    let text = match Program::accept(image) {
        Ok(program) => Listing(&program).to_string(),
        Err(refusal) => format!("refused {}\n", refusal.number()),
    };
    text.into_bytes()
}

struct Listing<'p>(&'p Program);

impl fmt::Display for Listing<'_> {
    fn fmt(&self, f: &mut fmt::Formatter<'_>) -> fmt::Result {
        let Program { structs, steps, commands, depth, .. } = self.0;
        writeln!(f, "audala {} {} {} {depth}", structs.len(), steps.len(), commands.len())?;
        for step in steps {
            let part = usize::from(step.part.first)..usize::from(step.part.end);
            for (position, command) in commands[part].iter().enumerate() {
                writeln!(f, "{} {} {position} {command}", step.structure, step.name)?;
            }
        }
        Ok(())
    }
}
