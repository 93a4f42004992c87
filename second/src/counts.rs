//! Cases of 02 §14, how many orders of a step end in which way. Their format
//! stands in docs/CASES.md, kind 13; they are answered through the C header
//! alone. No case has more than 400,000 orders: the second engine lists each.

use crate::cases::{
    MOST_PLACES, MOST_PROGRAM, MOST_TABLE, list_digest, put_bytes, put_number, take_bytes,
    take_number,
};
use crate::generate::encode::image;
use engine::{Command, CountAnswer, Counting, Question, count, count_up_to};
use std::io::{self, Read};

/// The kind byte.
const KIND: u8 = 13;

/// Any number may be asked about.
const MOST_ASKED: usize = u32::MAX as usize;

#[derive(Clone, Debug, PartialEq, Eq)]
pub struct Count {
    places: usize,
    question: Question,
    program: Vec<u8>,
    table: Vec<u8>,
}

impl Count {
    pub fn new(places: usize, question: Question, program: Vec<u8>, table: Vec<u8>) -> Count {
        Count { places, question, program, table }
    }

    /// Adds the case to a file's bytes.
    pub fn write(&self, file: &mut Vec<u8>) {
        file.push(KIND);
        put_number(file, self.places);
        for asked in [self.question.name, self.question.label, self.question.parameter] {
            put_number(file, asked as usize);
        }
        put_bytes(file, &self.program);
        put_bytes(file, &self.table);
    }

    /// Reads the next case; none at the end of the file.
    pub fn read(file: &mut impl Read) -> io::Result<Option<Count>> {
        let mut kind = [0];
        if file.read(&mut kind)? == 0 {
            return Ok(None);
        }
        if kind[0] != KIND {
            return Err(io::Error::other("a case of a count is of kind 13"));
        }
        let places = take_number(file, MOST_PLACES)?;
        let question = Question {
            name: take_number(file, MOST_ASKED)? as u32,
            label: take_number(file, MOST_ASKED)? as u32,
            parameter: take_number(file, MOST_ASKED)? as u32,
        };
        let program = take_bytes(file, MOST_PROGRAM)?;
        let table = take_bytes(file, MOST_TABLE)?;
        Ok(Some(Count { places, question, program, table }))
    }

    /// The line that answers the case.
    pub fn answer(&self) -> String {
        let mut list = vec![None; self.places];
        line(&count(&self.program, &self.table, self.question, &mut list), &list)
    }

    /// The answer with so many commands at most in the place of 12.
    pub fn count_up_to(&self, most: usize, counting: Counting) -> CountAnswer {
        let mut list = vec![None; self.places];
        count_up_to(most, counting, &self.program, &self.table, self.question, &mut list)
    }

    /// The line of such an answer, by sums.
    pub fn summed(&self, most: usize) -> String {
        let (mut list, by) = (vec![None; self.places], Counting::Summed);
        let answer = count_up_to(most, by, &self.program, &self.table, self.question, &mut list);
        line(&answer, &list)
    }
}

fn line(answer: &CountAnswer, list: &[Option<Command>]) -> String {
    format!(
        "count {} {} {} {} {}",
        answer.number,
        answer.with_true,
        answer.with_false,
        answer.stopped,
        list_digest(list)
    )
}

/// One struct (Bool, Int): step 3 is `on := true`, 4 has no statement, 5 is step 3
/// twice; 3 is scheduled.
const SWITCH: &[u8] =
    &[1, 2, 2, 0, 3, 3, 1, 3, 1, 0, 21, 1, 4, 0, 5, 2, 3, 1, 0, 21, 1, 3, 1, 0, 21, 1, 1, 1, 3];

/// One struct (Bool, Int): step 0 is `count := 1 / count`.
const DIVIDE: &[u8] = &[1, 2, 2, 0, 1, 0, 1, 3, 1, 1, 39, 19, 1, 0, 0, 0, 18, 1, 1, 1, 1, 0];

/// One struct (Bool): step 0 is `if on { on := false }`.
const GUARD: &[u8] = &[1, 1, 2, 1, 0, 1, 1, 18, 1, 0, 1, 3, 1, 0, 21, 0, 1, 1, 0];

/// Structs (reference to struct 1) and (Bool): step 0 of the first is
/// `other.on := true`.
const REMOTE: &[u8] = &[2, 1, 17, 1, 2, 1, 0, 1, 3, 2, 0, 0, 21, 1, 0, 1, 1, 0];

/// Structs (Bool) and (): step 0 of the first constructs one of the second.
const MAKER: &[u8] = &[2, 1, 2, 0, 1, 0, 1, 4, 1, 0, 1, 1, 0];

/// A table stream of these records.
fn table(records: &[&[u8]]) -> Vec<u8> {
    let count = (records.len() as u16).to_le_bytes();
    [&count[..], &records.concat()].concat()
}

/// The committed cases.
pub fn cases() -> Vec<Count> {
    let mut made = Vec::new();
    let mut ask = |places: usize, program: &[u8], table: &[u8], asked: [u32; 3]| {
        let [name, label, parameter] = asked;
        let question = Question { name, label, parameter };
        made.push(Count { places, question, program: image(program), table: image(table) });
    };
    let off: &[u8] = &[0, 0, 0, 0, 0, 0, 0, 0, 0];
    let on: &[u8] = &[0, 1, 0, 0, 0, 2, 0, 0, 0];
    // Numbers of records, every name, label and parameter beside those that are there.
    for records in 0..5 {
        let rows: Vec<&[u8]> = (0..records).map(|k| [off, on][k as usize % 2]).collect();
        let rows = table(&rows);
        for name in [0, 6, 31, 32, 35, 259, u32::MAX] {
            ask(1_024, SWITCH, &rows, [name, 1, 0]);
        }
        for name in [3, 4, 5] {
            for label in [0, 1, records, records + 1, u32::MAX] {
                for parameter in [0, 1, 2] {
                    ask(1_024, SWITCH, &rows, [name, label, parameter]);
                }
            }
        }
        ask(1_024, SWITCH, &rows, [3, 0, u32::MAX]);
        ask(1_024, SWITCH, &rows, [3, 256, 8]);
    }
    for places in [0, 1_023, 1_024, 1_025, 1_100] {
        ask(places, SWITCH, &table(&[off]), [3, 1, 0]);
        ask(places, SWITCH, &table(&[off]), [9, 9, 9]);
    }
    for rows in [&[off][..], &[on], &[on, on], &[]] {
        for label in 0..3 {
            ask(1_024, DIVIDE, &table(rows), [0, label, 0]);
        }
    }
    for rows in [&[&[0, 1, 0, 0, 0][..]][..], &[&[0, 0, 0, 0, 0]], &[]] {
        for label in 0..2 {
            ask(1_024, GUARD, &table(rows), [0, label, 0]);
        }
    }
    for target in [1, 3] {
        let refer: &[u8] = &[0, target, 0, 0, 0];
        let held: &[u8] = &[1, 0, 0, 0, 0];
        for rows in [&[refer, held][..], &[refer, held, refer]] {
            for label in 0..5 {
                ask(1_024, REMOTE, &table(rows), [0, label, 0]);
            }
        }
    }
    // The last places of the table: two makers have room for both, one, none.
    for others in 250..255 {
        let mut rows: Vec<&[u8]> = vec![&[0, 1, 0, 0, 0]];
        rows.extend(std::iter::repeat_n(&[1u8][..], others - 1));
        ask(1_024, MAKER, &table(&rows), [0, 2, 0]);
        ask(1_024, MAKER, &table(&rows), [0, 0, 0]);
    }
    // Numbers of the images, with everything after them wrong too.
    for damaged in [&SWITCH[..28], &[SWITCH, &[0][..]].concat(), &[0; 8][..]] {
        ask(0, damaged, &[], [9, 9, 9]);
    }
    for damaged in [&[1][..], &[1, 0], &[1, 0, 1], &[1, 0, 0, 2, 0, 0, 0, 0, 0, 0, 0]] {
        ask(0, SWITCH, damaged, [9, 9, 9]);
    }
    made
}
