//! The examples: a program as text, its table as text, and a file that says
//! for lists of turns what the run of each gives, in entries
//!
//! ```text
//! turns COUNTxBYTE,BYTE..
//! gives NUMBER TURNS
//! the last table as text
//! ```
//!
//! with an empty line behind each. A list of turns has those bytes so many times.

use crate::cases::{Case, OUTPUT_FILL};
use crate::generate::encode::BLOCK_BYTES;
use crate::tables::{table_image, table_text};
use engine::run;
use text::read_bare;

const PLACES: usize = 1_024;
const OUTPUT: usize = 8_704;
const IMAGE: usize = 32_768;

pub struct Example {
    program: Vec<u8>,
    table: Vec<u8>,
    /// The lists of turns, each as it is written and its bytes.
    lists: Vec<(String, Vec<u8>)>,
}

impl Example {
    /// Reads the three; of the file of runs the lists of turns alone.
    pub fn read(text: &[u8], table: &str, runs: &str) -> Result<Example, String> {
        let mut program = vec![0; IMAGE];
        let answer = read_bare(text, &mut program);
        if answer.number != 0 {
            return Err(format!("the text is refused {}", answer.number));
        }
        program.truncate(BLOCK_BYTES * answer.blocks);
        let table = table_image(&program, table)?;
        let mut lists = Vec::new();
        for list in runs.lines().filter_map(|line| line.strip_prefix("turns ")) {
            let bytes = turns(list).ok_or_else(|| format!("no list of turns: {list}"))?;
            lists.push((list.to_string(), bytes));
        }
        if lists.is_empty() {
            return Err("there is no list of turns".to_string());
        }
        Ok(Example { program, table, lists })
    }

    /// A check of the program, and a run for each list of turns.
    pub fn cases(&self) -> Vec<Case> {
        let check = Case::Check { places: PLACES, program: self.program.clone() };
        let run = |turns: &Vec<u8>| Case::Run {
            places: PLACES,
            output: OUTPUT,
            program: self.program.clone(),
            table: self.table.clone(),
            turns: turns.clone(),
        };
        std::iter::once(check).chain(self.lists.iter().map(|(_, turns)| run(turns))).collect()
    }

    /// The file of runs, as the engine gives it.
    pub fn runs(&self) -> Result<String, String> {
        let mut text = String::new();
        for (list, turns) in &self.lists {
            let mut output = vec![OUTPUT_FILL; OUTPUT];
            let answer = run(&self.program, &self.table, turns, &mut output, &mut [None; PLACES]);
            let last = table_text(&self.program, &output[..BLOCK_BYTES * answer.blocks])?;
            text += &format!("turns {list}\ngives {} {}\n{last}\n", answer.number, answer.turns);
        }
        Ok(text)
    }
}

/// The bytes of a list of turns.
fn turns(list: &str) -> Option<Vec<u8>> {
    let (count, bytes) = list.split_once('x')?;
    let bytes: Vec<u8> = bytes.split(',').map(str::parse).collect::<Result<_, _>>().ok()?;
    Some(bytes.repeat(count.parse().ok()?))
}
