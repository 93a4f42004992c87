//! Runs that stop at each number from the state, 01's bench rows, and turns as
//! 02 §5 counts them.

use super::{P, run};
use crate::cases::Case;

pub fn cases() -> Vec<Case> {
    let runs = [rows(), arithmetic(), both_sides(), constructors(), fixes(), turns()].concat();
    [runs, holders(), rounds()].concat()
}

fn cells(records: &[(u32, u32)]) -> Vec<u8> {
    let mut table = (records.len() as u16).to_le_bytes().to_vec();
    for (load, prev) in records {
        table.push(0);
        table.extend(load.to_le_bytes());
        table.extend(prev.to_le_bytes());
    }
    table
}

fn rows() -> Vec<Case> {
    let two = cells(&[(5, 0), (7, 1)]);
    let ring = cells(&[(5, 2), (7, 1)]);
    let in_turn = |parts: &[(usize, u8)]| -> Vec<u8> {
        parts.iter().flat_map(|&(count, byte)| vec![byte; count]).collect()
    };
    let in_fix = [&P[..18], &[1, 3, 1, 1, 0]].concat();
    vec![
        run(&P, &two, &[0; 24]),
        run(&P, &two, &[0; 23]),
        run(&P, &two, &[0; 25]),
        run(&P, &two, &[]),
        run(&P, &ring, &[0; 24]),
        run(&P, &ring, &in_turn(&[(8, 0), (8, 1), (8, 0)])),
        run(&P, &ring, &in_turn(&[(14, 0), (8, 1), (2, 0)])),
        run(&P, &cells(&[(1, 0), (0x7FFF_FFFF, 1)]), &[0; 24]),
        run(&P, &cells(&[(1, 0), (0x7FFF_FFFF, 1)]), &[0; 21]),
        run(&in_fix, &cells(&[(5, 0)]), &[0; 20]),
        run(&in_fix, &cells(&[(5, 0)]), &[0; 15]),
        run(&in_fix, &cells(&[]), &[0; 20]),
    ]
}

/// Every arithmetic and order operator on values at the edges.
fn arithmetic() -> Vec<Case> {
    let pairs: [(u32, u32); 15] = [
        (0, 0),
        (7, 0),
        (0x8000_0000, 1),
        (7, 0xFFFF_FFFE),
        (0x8000_0000, 0xFFFF_FFFF),
        (0x7FFF_FFFF, 1),
        (0xFFFF_FFF9, 2),
        (65_536, 65_536),
        (65_536, 32_768),
        (0xFFFF_0000, 32_768),
        (3, 5),
        (0xFFFF_FFFF, 1),
        (0xFFFF_FFFF, 0x7FFF_FFFF),
        (0x7FFF_FFFF, 0x8000_0000),
        (0xFFFF_FFF8, 2),
    ];
    let mut cases = Vec::new();
    for of in [0u8, 1] {
        for operator in 32..=42u8 {
            let (given, tried) = if operator < 38 { (2, 4) } else { (of, pairs.len()) };
            for &(left, right) in &pairs[..tried] {
                let mut program = vec![1, 1, given, 1, 0, 1, 3, 1, 0, operator];
                for value in [left, right] {
                    program.push(19 + of);
                    program.extend(value.to_le_bytes());
                }
                program.extend([1, 1, 0]);
                cases.push(run(&program, &[1, 0, 0, 0, 0, 0, 0], &[0; 10]));
            }
        }
    }
    cases
}

/// And and or over a right side that may divide by zero.
fn both_sides() -> Vec<Case> {
    let mut cases = Vec::new();
    for (operator, left) in [(43, 0), (43, 1), (44, 0), (44, 1)] {
        for divisor in [0, 1] {
            // b := left operator 1 / divisor = 0
            let mut program = vec![1, 1, 2, 1, 0, 1, 3, 1, 0, operator, 21, left];
            program.extend([32, 39, 19, 1, 0, 0, 0, 19, divisor, 0, 0, 0, 22, 0, 1, 1, 0]);
            cases.push(run(&program, &[1, 0, 0, 0, 0, 0, 0], &[1; 20]));
        }
    }
    cases
}

/// Constructors below, at and past 256 instances.
fn constructors() -> Vec<Case> {
    let once = [1, 0, 1, 0, 1, 4, 0, 1, 1, 0];
    let mut cases = Vec::new();
    for count in [0u8, 1, 126, 127, 128, 253, 254, 255] {
        let table = [vec![count, 0], vec![0; usize::from(count)]].concat();
        cases.push(run(&once, &table, &[7; 300]));
    }
    // arguments in order: construct 0 (1, 2, true, this, new 1 (5))
    let mut program = vec![2, 5, 0, 1, 2, 16, 17, 1, 0, 1, 0, 1, 4, 0, 19, 1, 0, 0, 0];
    program.extend([20, 2, 0, 0, 0, 21, 1, 23, 17, 1, 19, 5, 0, 0, 0, 0, 2, 1, 0, 1, 0]);
    cases.push(run(&program, &[0, 0], &[0; 30]));
    cases.push(run(&program, &[0, 0], &[201; 23]));
    // an endless Fix of a constructor, cut and at its end
    let endless = [2, 0, 0, 1, 0, 1, 4, 1, 0, 1, 3, 1, 2, 0, 0];
    cases.push(run(&endless, &[0, 0], &[0; 5]));
    cases.push(run(&endless, &[0, 0], &[0; 254]));
    cases.push(run(&endless, &[0, 0], &[0; 255]));
    cases
}

/// Step 0 declares, step 1 is `if n < 1 then n := 1`, step 2 constructs a
/// struct 1 if n < 1 and sets it, under Fixes of several forms.
fn fixes() -> Vec<Case> {
    let mut steps = vec![2, 1, 0, 0, 3, 0, 1, 2, 0, 8, 22, 0];
    let below_one = [1, 36, 18, 1, 0, 19, 1, 0, 0, 0];
    let set = [3, 1, 0, 19, 1, 0, 0, 0];
    steps.extend([&[1, 1][..], &below_one, &[1], &set].concat());
    steps.extend([&[2, 1][..], &below_one, &[2, 4, 1], &set, &[0]].concat());
    let schedules: [&[u8]; 9] = [
        &[1, 3, 2, 1, 0, 3, 1, 1, 1],
        &[1, 3, 2, 3, 1, 1, 1, 1, 0],
        &[2, 3, 1, 1, 1, 3, 1, 1, 0],
        &[1, 3, 1, 3, 1, 3, 1, 1, 1],
        &[1, 3, 3, 1, 0, 3, 2, 1, 0, 3, 1, 1, 1, 1, 0],
        &[1, 3, 1, 1, 2],
        &[1, 3, 2, 1, 0, 3, 1, 1, 2],
        &[1, 3, 1, 3, 1, 3, 1, 3, 1, 3, 1, 3, 1, 3, 1, 3, 1, 1, 1],
        &[3, 1, 0, 3, 2, 2, 0, 1, 2, 0, 0, 1, 0],
    ];
    let mut cases = Vec::new();
    for schedule in schedules {
        for records in [0u8, 1, 2] {
            let table = [vec![records, 0], [0, 0, 0, 0, 0].repeat(usize::from(records))].concat();
            cases.push(run(&[&steps[..], schedule].concat(), &table, &[3; 200]));
        }
    }
    cases
}

/// Turn bytes against the number of holders, and moves round the last byte.
fn turns() -> Vec<Case> {
    // load := load + prev.load by five, then a Fix of an empty step
    let program = [&[1, 2, 0, 16, 2, 0, 1][..], &P[7..18], &[9, 0, 3, 1, 0, 3, 1, 1, 9, 1, 9]];
    let program = program.concat();
    let records = cells(&[(1, 5), (2, 1), (3, 2), (4, 3), (5, 4)]);
    let mut cases = Vec::new();
    for step in [1usize, 5, 6, 7, 85, 251, 255] {
        let bytes: Vec<u8> = (0..48).map(|at| ((at * step) & 255) as u8).collect();
        for count in [47, 48] {
            cases.push(run(&program, &records, &bytes[..count]));
        }
    }
    let idle = [1, 0, 1, 9, 0, 2, 3, 1, 1, 9, 1, 9];
    cases.push(run(&idle, &[0, 0], &[]));
    cases.push(run(&idle, &[3, 0, 0, 0, 0], &[1, 2]));
    // an endless Fix uses up every turn there may be: n := 1 − n
    let endless = [1, 1, 0, 1, 0, 1, 3, 1, 0, 42, 19, 1, 0, 0, 0, 18, 1, 0, 1, 3, 1, 1, 0];
    cases.push(run(&endless, &[1, 0, 0, 0, 0, 0, 0], &[1; 65_536]));
    cases
}

/// A run cut at each turn: an if passed over as the last command, a step that
/// holds none, an instance made on the way that holds commands later.
fn holders() -> Vec<Case> {
    // struct 0 (Bool): step 0 is `if b then construct 1`, step 1 has nothing,
    // step 2 is an empty if, as is step 0 of struct 1; 0 < 1 < 2 < 0
    let mut program = vec![2, 1, 2, 0, 3, 0, 1, 1, 18, 1, 0, 1, 4, 1, 1, 0, 2, 1, 1, 21, 1, 0];
    program.extend([1, 0, 1, 1, 21, 1, 0, 4, 1, 0, 1, 1, 1, 2, 1, 0]);
    let table = [3, 0, 0, 1, 0, 0, 0, 1, 0, 0, 0, 0, 0];
    let bytes: Vec<u8> = (0..40).map(|at: usize| ((at * 7) & 255) as u8).collect();
    (0..=37).map(|count| run(&program, &table, &bytes[..count])).collect()
}

/// Turns that go round: each instance constructs a struct 1 with its number, so
/// that the table tells who came when; once, twice, with a step of struct 1
/// between, and in a Fix.
fn rounds() -> Vec<Case> {
    // struct 0 (Nat): step 0 is `construct 1 (n)`; struct 1 (Nat): step 1 is
    // `n := n + n`
    let mut steps = vec![2, 1, 1, 1, 1, 1, 0, 1, 4, 1, 18, 1, 0];
    steps.extend([1, 1, 1, 3, 1, 0, 41, 18, 1, 0, 18, 1, 0]);
    // labels 2 to 6, of which 3 and 5 are of struct 1
    let mut table = vec![5, 0];
    for (of, number) in [(0, 20), (1, 3), (0, 40), (1, 5), (0, 60)] {
        table.extend([of, number, 0, 0, 0]);
    }
    let schedules: [&[u8]; 4] =
        [&[1, 1, 0], &[2, 1, 0, 1, 0], &[3, 1, 0, 1, 1, 1, 0], &[1, 3, 2, 1, 1, 1, 0]];
    let mut cases = Vec::new();
    for schedule in schedules {
        let program = [&steps[..], schedule].concat();
        for byte in [0u8, 1, 2, 3, 4, 7, 127, 254, 255] {
            cases.push(run(&program, &table, &[byte; 80]));
        }
        for step in [1usize, 3, 11, 83, 253] {
            let bytes: Vec<u8> = (0..80).map(|at| ((at * step) & 255) as u8).collect();
            cases.push(run(&program, &table, &bytes));
        }
    }
    // 02's rows: the stop with 35 behind 17 turns, and one turn before it
    let large = cells(&[(1, 0), (0x7FFF_FFFF, 1)]);
    cases.push(run(&P, &large, &[0; 18]));
    cases.push(run(&P, &large, &[0; 17]));
    // 256 instances, the highest label first and behind it the lowest
    let add = [1, 1, 1, 1, 0, 1, 3, 1, 0, 41, 18, 1, 0, 20, 1, 0, 0, 0, 1, 1, 0];
    let full = [&[255, 0][..], &[0; 5 * 255]].concat();
    for (first, behind) in [(255, 0), (255, 255), (254, 1), (254, 0), (0, 255), (0, 254)] {
        let bytes = [&[first][..], &[behind; 1_400]].concat();
        cases.push(run(&add, &full, &bytes));
    }
    cases
}
