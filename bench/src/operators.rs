//! Every operator on the corner values of each type that it takes, one run for each pair, through both engines: every number answered,
//! every output byte and every list place must be the same.
use crate::agree::answered;
use second::cases::Case;
use second::generate::encode::{Record, image, table_stream};
use std::collections::BTreeMap;

const INTS: [i32; 11] = [i32::MIN, i32::MIN + 1, -7, -2, -1, 0, 1, 2, 7, i32::MAX - 1, i32::MAX];

const NATS: [u32; 6] = [0, 1, 2, 7, 1 << 31, u32::MAX];

/// A type byte, its operators, and the values that they meet; a reference is the label of the null instance or of the record.
fn grid() -> [(u8, Vec<u8>, Vec<u32>); 4] {
    [
        (0, (32..=42).collect(), INTS.map(i32::cast_unsigned).to_vec()),
        (1, (32..=42).collect(), NATS.to_vec()),
        (2, vec![32, 33, 43, 44], vec![0, 1]),
        (16, vec![32, 33], vec![0, 1]),
    ]
}

/// `if go then c := a operator b` on a record (a, b, c, go); the null instance's go is false, so that the record alone computes.
fn case(of: u8, operator: u8, a: u32, b: u32) -> Case {
    let result = if (38..=42).contains(&operator) { of } else { 2 };
    let step = [1, 0, 1, 1, 18, 1, 3, 1, 3, 1, 2, operator, 18, 1, 0, 18, 1, 1];
    let program = [&[1, 4, of, of, result, 2][..], &step, &[1, 1, 0]].concat();
    let table = table_stream(&[Record { of: 0, values: vec![a, b, 0, 1] }]);
    Case::Run { places: 1_024, output: 8_704, program: image(&program), table: image(&table), turns: vec![0; 32] }
}

pub fn compare() {
    let mut total = 0;
    for (of, operators, values) in grid() {
        for operator in operators {
            let mut numbers = BTreeMap::new();
            for &a in &values {
                for &b in &values {
                    *numbers.entry(answered(&case(of, operator, a, b))).or_insert(0u32) += 1;
                    total += 1;
                }
            }
            assert!(numbers.keys().all(|number| [0, 35].contains(number)), "a run came to another end: {numbers:?}");
            println!("type {of}, operator {operator}: runs by number {numbers:?}");
        }
    }
    println!("{total} runs: both engines agree");
}
