//! Names and types: numbers 7 and 8, their order, and 6 before both.

use super::check;
use crate::cases::Case;

/// Struct 0 (Int, Nat, Bool, struct 0, struct 1) with step 4 of so many
/// statements, struct 1 (Bool) with an empty step 5.
fn with_body(count: u8, statements: &[u8], schedule: &[u8]) -> Case {
    let head = [2, 5, 0, 1, 2, 16, 17, 1, 2, 1, 4, count];
    check(&[&head, statements, &[1, 5, 0], schedule].concat())
}

fn body(count: u8, statements: &[u8]) -> Case {
    with_body(count, statements, &[1, 1, 4])
}

fn expression(of: u8, value: &[u8]) -> Case {
    body(1, &[&[2, of, 8], value].concat())
}

pub fn cases() -> Vec<Case> {
    [schedules(), locals(), paths(), operators(), arguments(), order()].concat()
}

fn schedules() -> Vec<Case> {
    let lists: [&[u8]; 8] = [
        &[1, 1, 5],
        &[1, 1, 6],
        &[1, 2, 0, 4],
        &[1, 2, 0, 5],
        &[1, 2, 1, 4],
        &[1, 2, 1, 31],
        &[2, 1, 4, 3, 1, 1, 6],
        &[1, 3, 2, 2, 1, 5, 3, 1, 2, 1, 4],
    ];
    let mut cases: Vec<Case> = lists.iter().map(|list| with_body(0, &[], list)).collect();
    for names in [[4, 5], [4, 4], [31, 31]] {
        cases.push(check(&[1, 0, 2, names[0], 0, names[1], 0, 1, 1, names[1]]));
        cases.push(check(&[2, 0, 0, 1, names[0], 0, 1, names[1], 0, 1, 1, names[1]]));
    }
    cases
}

fn locals() -> Vec<Case> {
    let declare = [2, 0, 8, 22, 0];
    let other = [2, 0, 15, 22, 0];
    let read = [3, 1, 0, 18, 1, 8];
    let write = [3, 1, 8, 22, 0];
    let if_true = [1, 21, 1];
    vec![
        body(2, &[&declare[..], &read].concat()),
        body(2, &[&declare[..], &write].concat()),
        body(2, &[&read[..], &declare].concat()),
        body(1, &write),
        body(1, &[2, 0, 8, 18, 1, 8]),
        body(2, &[&declare[..], &declare].concat()),
        body(2, &[&declare[..], &other].concat()),
        body(2, &[&declare[..], &if_true, &[1], &read].concat()),
        body(2, &[&declare[..], &if_true, &[1], &declare].concat()),
        body(1, &[&if_true[..], &[2], &declare, &read].concat()),
        body(2, &[&if_true[..], &[1], &declare, &read].concat()),
        body(2, &[&if_true[..], &[1], &declare, &declare].concat()),
        body(2, &[&if_true[..], &[1], &declare, &if_true, &[1], &declare].concat()),
        body(2, &[&if_true[..], &[1], &declare, &if_true, &[1], &read].concat()),
        body(3, &[&if_true[..], &[1], &declare, &other, &read].concat()),
        body(2, &[2, 16, 8, 23, 3, 2, 8, 0, 22, 0]),
        body(2, &[2, 16, 8, 23, 3, 4, 8, 3, 3, 1, 22, 1]),
        body(2, &[2, 17, 8, 22, 17, 3, 2, 8, 1, 22, 2]),
        body(1, &[2, 0, 7, 22, 0]),
        body(1, &[2, 0, 16, 22, 0]),
        check(&[1, 0, 2, 4, 1, 2, 0, 8, 22, 0, 5, 1, 2, 0, 8, 22, 0, 1, 1, 4]),
        check(&[1, 0, 2, 4, 1, 2, 0, 8, 22, 0, 5, 1, 2, 0, 9, 18, 1, 8, 1, 1, 4]),
    ]
}

fn paths() -> Vec<Case> {
    let mut cases = Vec::new();
    for path in [
        &[1, 0][..],
        &[1, 4],
        &[1, 5],
        &[1, 7],
        &[2, 3, 0],
        &[2, 3, 5],
        &[2, 4, 0],
        &[2, 4, 1],
        &[2, 0, 0],
        &[2, 2, 0],
        &[3, 3, 3, 0],
        &[3, 3, 4, 0],
        &[3, 4, 0, 0],
        &[4, 3, 3, 3, 0],
        &[4, 3, 3, 4, 0],
        &[4, 3, 3, 3, 7],
        &[4, 3, 3, 3, 8],
        &[5, 3, 3, 3, 3, 0],
        &[0, 0],
        &[2, 7, 0],
    ] {
        cases.push(expression(if path[0] % 2 == 0 { 2 } else { 0 }, &[&[18], path].concat()));
        cases.push(body(1, &[&[3], path, &[22, 0]].concat()));
    }
    cases
}

/// Every operator on every pair of a few types, declared as what it may give.
fn operators() -> Vec<Case> {
    let types = [0, 1, 2, 16, 17];
    let mut cases = Vec::new();
    for operator in 32..=44 {
        for (at, &left) in types.iter().enumerate() {
            let next = types[(at + 1) % types.len()];
            for right in if operator % 4 == 0 { vec![left, next] } else { vec![left] } {
                let of = if (38..=42).contains(&operator) { left } else { 2 };
                cases.push(expression(of, &[operator, 22, left, 22, right]));
            }
        }
    }
    for of in types {
        cases.push(expression(2, &[16, 22, of]));
        cases.push(body(1, &[1, 22, of, 0]));
        cases.push(expression(of, &[23]));
        cases.push(expression(of, &[22, 0]));
        cases.push(expression(of, &[41, 19, 1, 0, 0, 0, 19, 255, 255, 255, 255]));
        cases.push(expression(of, &[36, 20, 1, 0, 0, 0, 20, 255, 255, 255, 255]));
    }
    cases
}

fn arguments() -> Vec<Case> {
    vec![
        body(1, &[4, 1, 22, 2]),
        body(1, &[4, 1, 22, 0]),
        body(1, &[4, 0, 22, 0, 22, 1, 22, 2, 22, 16, 22, 17]),
        body(1, &[4, 0, 22, 0, 22, 1, 22, 2, 23, 17, 1, 21, 0]),
        body(1, &[4, 0, 22, 0, 22, 1, 22, 2, 22, 17, 22, 16]),
        body(1, &[4, 0, 22, 1, 22, 0, 22, 2, 22, 16, 22, 17]),
        expression(17, &[17, 1, 21, 1]),
        expression(16, &[17, 1, 21, 1]),
        expression(17, &[17, 1, 19, 1, 0, 0, 0]),
    ]
}

/// Breaches of 6, 7 and 8 together, in either order in the stream.
fn order() -> Vec<Case> {
    let many = [4, 1, 22, 2].repeat(17);
    let bad_type = [3, 1, 0, 22, 1];
    let bad_name = [3, 1, 5, 22, 1];
    vec![
        body(2, &[&bad_type[..], &bad_name].concat()),
        body(2, &[&bad_name[..], &bad_type].concat()),
        with_body(1, &bad_type, &[1, 1, 9]),
        with_body(18, &[&many[..], &bad_name].concat(), &[1, 1, 4]),
        with_body(18, &[&bad_name[..], &many].concat(), &[1, 1, 4]),
        with_body(18, &[&bad_type[..], &many].concat(), &[1, 1, 9]),
        with_body(1, &[3, 1, 5, 18, 2, 0, 0], &[1, 1, 4]),
        with_body(1, &[3, 2, 5, 0, 18, 2, 0, 0], &[1, 1, 4]),
    ]
}
