//! Table streams at their limits: numbers 11 and 12.

use super::run;
use crate::cases::Case;

/// Struct 0 (Int, Bool, struct 0, struct 1) with a step `Int := 1`, struct 1
/// (Nat).
const PROGRAM: [u8; 22] = [2, 4, 0, 2, 16, 17, 1, 1, 1, 0, 1, 3, 1, 0, 19, 1, 0, 0, 0, 0, 1, 3];

fn with_table(table: &[u8]) -> Case {
    let program = [&PROGRAM[..], &[1, 1, 0]].concat();
    run(&program, table, &[0; 40])
}

fn record(int: u32, truth: u32, own: u32, other: u32) -> Vec<u8> {
    let values = [int, truth, own, other].map(u32::to_le_bytes).concat();
    [&[0][..], &values].concat()
}

fn table(records: &[Vec<u8>]) -> Vec<u8> {
    [(records.len() as u16).to_le_bytes().to_vec(), records.concat()].concat()
}

pub fn cases() -> Vec<Case> {
    [values(), cuts(), counts(), lengths()].concat()
}

fn values() -> Vec<Case> {
    let nat = vec![1, 255, 255, 255, 255];
    let tables = [
        table(&[]),
        table(&[record(0, 0, 0, 1)]),
        table(&[record(0x8000_0000, 1, 2, 1), nat.clone()]),
        table(&[record(7, 1, 2, 3), nat.clone()]),
        table(&[record(7, 2, 2, 3), nat.clone()]),
        table(&[record(7, 256, 2, 3), nat.clone()]),
        table(&[record(7, 0x0100_0000, 2, 3), nat.clone()]),
        table(&[record(7, 1, 1, 3), nat.clone()]),
        table(&[record(7, 1, 3, 3), nat.clone()]),
        table(&[record(7, 1, 2, 0), nat.clone()]),
        table(&[record(7, 1, 2, 2), nat.clone()]),
        table(&[record(7, 1, 4, 3), nat.clone()]),
        table(&[record(7, 1, 2, 4), nat.clone()]),
        table(&[record(7, 1, 2, 256 + 3), nat.clone()]),
        table(&[record(7, 1, 0xFFFF_FFFF, 3), nat.clone()]),
        table(&[record(7, 1, 4, 3), nat.clone(), record(8, 0, 2, 1)]),
        table(&[record(7, 1, 4, 3), nat.clone(), record(8, 2, 2, 1)]),
        table(&[nat.clone(), nat.clone()]),
        table(&[vec![2, 0, 0, 0, 0]]),
        table(&[vec![255]]),
        table(&[record(7, 1, 9, 3), vec![2]]),
    ];
    tables.iter().map(|table| with_table(table)).collect()
}

/// A table of a wrong reference and a record behind it, cut at every byte, and
/// going on.
fn cuts() -> Vec<Case> {
    let whole = table(&[record(7, 1, 4, 3), vec![1, 9, 0, 0, 0]]);
    let mut cases: Vec<Case> = (1..=whole.len()).map(|end| with_table(&whole[..end])).collect();
    let right = table(&[record(7, 1, 2, 3), vec![1, 9, 0, 0, 0]]);
    for tail in [&[0][..], &[1, 9], &[0; 485]] {
        cases.push(with_table(&[&right[..], tail].concat()));
        cases.push(with_table(&[&whole[..], tail].concat()));
    }
    // a Bool of 2 that is cut before its last byte, and then the same whole
    let cut = [1, 0, 0, 7, 0, 0, 0, 2, 0, 0];
    cases.push(with_table(&cut));
    cases.push(with_table(&[&cut[..], &[0]].concat()));
    cases
}

/// N at 256 − S, one more, and far more; parameterless records.
fn counts() -> Vec<Case> {
    let mut cases = Vec::new();
    for structs in [1u8, 2, 16] {
        let s = usize::from(structs);
        let mut program = vec![structs];
        program.extend(vec![0; s]);
        program.extend([1, 0, 1, 2, 0, 8, 22, 0]);
        program.extend(vec![0; s - 1]);
        program.extend([1, 1, 0]);
        for count in [255 - s, 256 - s, 257 - s, 256, 65_535] {
            let mut table = (count as u16).to_le_bytes().to_vec();
            table.extend(vec![structs - 1; count.min(300)]);
            cases.push(run(&program, &table, &[255; 800]));
        }
        cases.push(run(&program, &((257 - s) as u16).to_le_bytes(), &[0; 3]));
        cases.push(run(&program, &((256 - s) as u16).to_le_bytes(), &[0; 3]));
    }
    cases
}

/// Tables that end on the last byte of a block, before it and behind it, and
/// the longest there are.
fn lengths() -> Vec<Case> {
    let mut cases = Vec::new();
    // 2 + 17 × wide + 5 × narrow: 503, 504, 505, 1,008 and 1,009 bytes
    for (wide, narrow) in [(28, 5), (26, 12), (29, 2), (58, 4), (56, 11)] {
        let records = [vec![record(3, 1, 2, 1); wide], vec![vec![1, 9, 0, 0, 0]; narrow]];
        cases.push(with_table(&table(&records.concat())));
    }
    let widest = [&[1, 8][..], &[1; 8], &[1, 0, 0, 1, 1, 0]].concat();
    for count in [254, 255, 256] {
        let mut record: Vec<u8> = (0..33).collect();
        record[1..].reverse();
        cases.push(run(&widest, &table(&vec![record; count]), &[]));
    }
    cases
}
