//! Number 8 and the typing rules of 01's "Names, types, commands".
mod common;
use common::*;

/// A program of two structs, 0 (Int, Nat, Bool, itself, struct 1) and
/// 1 (Int, struct 0), with these statements in a step of struct 0.
fn with(statements: &[&[u8]]) -> Vec<u8> {
    program(&[&[0, 1, 2, 16, 17], &[0, 16]], &[&[&step(0, statements)], &[]], &[1, 1, 0])
}

#[track_caller]
fn number(statement: &[u8], expected: u8) {
    assert_eq!(check_number(&image(&with(&[statement]))), expected);
}

const TYPES: [u8; 5] = [0, 1, 2, 16, 17];

#[test]
fn declarations_and_updates_match_exactly() {
    for (left, &of) in TYPES.iter().enumerate() {
        for (right, &other) in TYPES.iter().enumerate() {
            let expected = if left == right { 0 } else { 8 };
            number(&declare(of, 8, &var(&[right as u8])), expected);
            number(&declare(of, 8, &[22, other]), expected);
            number(&update(&[left as u8], &var(&[right as u8])), expected);
        }
    }
    number(&update(&[3], &[23]), 0);
    number(&update(&[4], &[23]), 8);
}

#[test]
fn operators_take_their_types() {
    for byte in 32..=44u8 {
        for (left, &of) in TYPES.iter().enumerate() {
            for (right, &other) in TYPES.iter().enumerate() {
                let allowed = of == other
                    && match byte {
                        32 | 33 => true,
                        34..=42 => of <= 1,
                        _ => of == 2,
                    };
                let result = if (38..=42).contains(&byte) { of } else { 2 };
                let whole = op(byte, &var(&[left as u8]), &var(&[right as u8]));
                number(&declare(result, 8, &whole), if allowed { 0 } else { 8 });
                let wrong = if result == 0 { 1 } else { 0 };
                number(&declare(wrong, 8, &whole), 8);
            }
        }
    }
}

#[test]
fn not_and_conditions_take_bool() {
    for (variable, &of) in TYPES.iter().enumerate() {
        let expected = if of == 2 { 0 } else { 8 };
        let path = var(&[variable as u8]);
        number(&when(&path, &[]), expected);
        number(&update(&[2], &join(&[&[16], &path])), expected);
        number(&declare(of, 8, &join(&[&[16], &path])), expected);
    }
}

#[test]
fn constructor_arguments_match_exactly() {
    number(&join(&[&[4, 1], &int(1), &[23]]), 0);
    number(&join(&[&[4, 1], &[23], &int(1)]), 8);
    number(&join(&[&[4, 1], &nat(1), &[23]]), 8);
    number(&join(&[&[4, 1], &int(1), &[22, 17]]), 8);
    number(&update(&[4], &join(&[&[17, 1], &int(1), &[22, 16]])), 0);
    number(&update(&[3], &join(&[&[17, 1], &int(1), &[22, 16]])), 8);
    number(&update(&[4], &join(&[&[17, 1], &boolean(1), &[22, 16]])), 8);
}

#[test]
fn later_variables_are_parameters_of_what_is_referred_to() {
    number(&update(&[4, 1, 3, 0], &int(1)), 0);
    number(&update(&[4, 1, 3, 1], &int(1)), 8);
    number(&update(&[0], &var(&[4, 0])), 0);
    number(&update(&[0], &var(&[4, 2])), 8);
    number(&update(&[4, 7], &int(1)), 8);
    number(&update(&[0, 0], &int(1)), 8);
    number(&update(&[0], &var(&[2, 0])), 8);
    number(&update(&[0], &var(&[4, 0, 0])), 8);
    // A local first.
    let local = declare(17, 8, &var(&[4]));
    for (path, expected) in [(&[8u8, 0][..], 0), (&[8, 1], 8), (&[8, 2], 8), (&[8], 8)] {
        let stream = with(&[&local, &update(&[0], &var(path))]);
        assert_eq!(check_number(&image(&stream)), expected);
        let stream = with(&[&local, &update(path, &int(1))]);
        assert_eq!(check_number(&image(&stream)), expected);
    }
}

#[test]
fn a_breach_in_any_step_counts() {
    let wrong = step(1, &[&update(&[0], &nat(1))]);
    let right = step(0, &[]);
    let stream = program(&[&[], &[0]], &[&[&right], &[&right, &wrong]], &[1, 1, 0]);
    refused(&stream, 8);
}

#[test]
fn commands_of_every_form() {
    let statements: [&[u8]; 4] = [
        &declare(16, 9, &[23]),
        &when(
            &join(&[&[16], &op(33, &var(&[9, 3]), &[22, 16])]),
            &[
                &when(&boolean(0), &[&[4, 1, 19, 255, 255, 255, 255, 22, 16]]),
                &update(&[9, 4, 0], &op(42, &int(i32::MIN), &var(&[4, 0]))),
            ],
        ),
        &update(&[1], &op(38, &nat(u32::MAX), &[22, 1])),
        &update(&[2], &op(37, &var(&[0]), &[22, 0])),
    ];
    let text = "push this, push this, wr 9, push this, rd 9, rd 3, push 16 0, op 33, not, if 14, \
         push 2 0, if 3, push 0 -1, push 16 0, cons 1, \
         push 0 -2147483648, push this, rd 4, rd 0, op 42 int, push this, rd 9, rd 4, wr 0, \
         push 1 4294967295, push 1 0, op 38, push this, wr 1, \
         push this, rd 0, push 0 0, op 37 int, push this, wr 2";
    let stream = with(&statements);
    // The construct statement's label stays below what follows it.
    accepted(&stream, 2, 1, 3, text);
    let mut lines = String::from("audala 2 1 35 3\n");
    for (position, command) in text.replace(" int", "").split(',').enumerate() {
        lines.push_str(&format!("0 0 {position} {}\n", command.trim()));
    }
    assert_eq!(engine::listing(&image(&stream)), lines.into_bytes());
}

#[test]
fn the_list_follows_structs_and_stream_order() {
    let first = step(5, &[&update(&[0], &[22, 17])]);
    let second = step(2, &[&[4, 0, 23]]);
    let own: &[&[u8]] = &[&step(7, &[]), &second, &step(1, &[&when(&boolean(1), &[])])];
    let stream = program(&[&[17], &[]], &[&[&first], own], &[1, 1, 7]);
    let text = "push 17 1, push this, wr 0, push this, cons 0, push 2 1, if 0";
    accepted(&stream, 2, 4, 2, text);
    let lines = "audala 2 4 7 2\n0 5 0 push 17 1\n0 5 1 push this\n0 5 2 wr 0\n\
                 1 2 0 push this\n1 2 1 cons 0\n1 1 0 push 2 1\n1 1 1 if 0\n";
    assert_eq!(engine::listing(&image(&stream)), lines.as_bytes());
}
