//! Each limit of 01 at its edge and one past it.
mod common;
use common::*;

#[track_caller]
fn number(stream: &[u8], expected: u8) {
    assert_eq!(check_number(&image(stream)), expected);
}

#[test]
fn structs_parameters_and_types() {
    let many = |count: usize| {
        let steps: Vec<&[&[u8]]> = vec![&[&[0, 0]]; count];
        program(&vec![&[][..]; count], &steps, &[1, 1, 0])
    };
    number(&many(1), 0);
    number(&many(16), 0);
    number(&many(17), 5);
    let parameters = |count| program(&[&vec![16; count]], &[&[&[0, 0]]], &[1, 1, 0]);
    number(&parameters(0), 0);
    number(&parameters(8), 0);
    number(&parameters(9), 5);
    let of = |byte, structs: usize| {
        let mut types: Vec<&[u8]> = vec![&[]; structs];
        let own = [byte];
        types[0] = &own;
        let mut steps: Vec<&[&[u8]]> = vec![&[]; structs];
        steps[0] = &[&[0, 0]];
        program(&types, &steps, &[1, 1, 0])
    };
    for (byte, structs, expected) in [(31, 16, 0), (31, 15, 5), (30, 15, 0), (32, 16, 5)] {
        number(&of(byte, structs), expected);
    }
}

#[test]
fn steps_and_names() {
    let steps = |count: u8| {
        let own: Vec<[u8; 2]> = (0..count).map(|name| [name, 0]).collect();
        let own: Vec<&[u8]> = own.iter().map(|step| &step[..]).collect();
        program(&[&[]], &[&own], &[1, 1, 0])
    };
    number(&steps(8), 0);
    number(&steps(9), 5);
    for (name, expected) in [(31, 0), (32, 5)] {
        number(&program(&[&[]], &[&[&step(name, &[])]], &[1, 1, name]), expected);
    }
}

#[test]
fn statements_in_a_step_and_in_a_body() {
    // An empty if is two commands, so 32 of them are just 64.
    let empty = when(&boolean(1), &[]);
    let many: Vec<&[u8]> = vec![&empty; 33];
    let own = |count| program(&[&[]], &[&[&step(0, &many[..count])]], &[1, 1, 0]);
    number(&own(32), 0);
    number(&own(33), 5);
    let inside = |count| {
        let body = when(&boolean(1), &many[..count]);
        program(&[&[]], &[&[&step(0, &[&body])]], &[1, 1, 0])
    };
    number(&inside(31), 0);
    number(&inside(32), 6);
    number(&inside(33), 5);
}

#[test]
fn if_nesting() {
    let nested = |levels| {
        let statement = (0..levels).fold(vec![4, 0], |body, _| when(&boolean(1), &[&body]));
        program(&[&[]], &[&[&step(0, &[&statement])]], &[1, 1, 0])
    };
    let ifs = (0..8).map(|level| format!("push 2 1, if {},", 15 - 2 * level));
    let text = format!("{} cons 0", ifs.collect::<String>());
    accepted(&nested(8), 1, 1, 1, &text);
    runs(&nested(8), &table(&[]), &[0; 17], 0, 17, &table(&[(0, &[])]));
    number(&nested(9), 5);
    // Side by side they don't nest.
    let deep = (0..7).fold(when(&boolean(1), &[]), |body, _| when(&boolean(1), &[&body]));
    number(&program(&[&[]], &[&[&step(0, &[&deep, &deep])]], &[1, 1, 0]), 0);
}

#[test]
fn expression_levels_of_every_form() {
    // Level 16 reached by right operands, left operands, arguments.
    let one = |variable: u8, expression: &[u8]| {
        program(&[&[0, 2]], &[&[&step(0, &[&update(&[variable], expression)])]], &[1, 1, 0])
    };
    let right = |levels| (1..levels).fold(int(1), |right, _| op(41, &int(1), &right));
    let left = |levels| (1..levels).fold(int(1), |left, _| op(41, &left, &int(1)));
    let calls = |levels| (1..levels).fold(vec![22, 16], |inner, _| join(&[&[17, 0], &inner]));
    let call = |levels| {
        let construct = declare(16, 8, &calls(levels));
        program(&[&[16]], &[&[&step(0, &[&construct])]], &[1, 1, 0])
    };
    for (levels, expected) in [(16, 0), (17, 5)] {
        number(&one(0, &left(levels)), expected);
        number(&one(0, &right(levels)), expected);
        number(&call(levels), expected);
    }
    // A construct statement is no expression: its arguments are at level 1.
    let nots = |count: usize| join(&[&vec![16; count], &[21, 0]]);
    let statement = |count| {
        let construct = join(&[&[4, 0], &nots(count)]);
        program(&[&[2]], &[&[&step(0, &[&construct])]], &[1, 1, 0])
    };
    number(&statement(15), 0);
    number(&statement(16), 5);
    let expression = |count| {
        let construct = join(&[&[17, 0], &nots(count)]);
        program(&[&[2]], &[&[&step(0, &[&declare(16, 8, &construct)])]], &[1, 1, 0])
    };
    number(&expression(14), 0);
    number(&expression(15), 5);
    // Level 17 takes no byte at all, but a missing one is still an end.
    let cut = one(1, &nots(16));
    let place = cut.len() - 5;
    assert_eq!(cut[place..], [21, 0, 1, 1, 0]);
    number(&cut[..place], 4);
    number(&join(&[&cut[..place], &[99]]), 5);
}

#[test]
fn paths_and_variables() {
    let read = |path: &[u8]| {
        program(&[&[16; 8]], &[&[&step(0, &[&update(&[0], &var(path))])]], &[1, 1, 0])
    };
    number(&read(&[7, 7, 7, 7]), 0);
    number(&read(&[7, 7, 7, 7, 7]), 5);
    number(&read(&[]), 5);
    number(&read(&[15]), 7);
    number(&read(&[16]), 5);
    number(&read(&[0, 8]), 5);
}

#[test]
fn schedule_counts_and_nesting() {
    let with = |schedule: &[u8]| join(&[&P[..18], schedule]);
    let flat = |count: usize| join(&[&[count as u8], &[1, 0].repeat(count)]);
    number(&with(&flat(1)), 0);
    number(&with(&flat(32)), 0);
    number(&with(&flat(33)), 5);
    number(&with(&join(&[&[1, 3], &flat(32)])), 0);
    number(&with(&join(&[&[1, 3], &flat(33)])), 5);
    let nested = |levels| with(&join(&[&[1, 3].repeat(levels), &flat(1)]));
    number(&nested(8), 0);
    number(&nested(9), 5);
    // 64 items: two Fixes of 31 are 2 + 62; 65 with one item beside them.
    let fixes = join(&[&[3], &flat(31), &[3], &flat(31)]);
    number(&with(&join(&[&[2], &fixes])), 0);
    number(&with(&join(&[&[3], &fixes, &[1, 0]])), 6);
    number(&with(&join(&[&[3], &fixes, &[2, 0, 0]])), 6);
}

/// 16 steps of 64 commands in two structs, and another struct's step.
fn full(more: &[&[u8]]) -> Vec<u8> {
    let once = update(&[0], &op(41, &var(&[0]), &var(&[1, 0])));
    let own: Vec<Vec<u8>> = (0..8).map(|name| step(name, &[&once[..]; 8])).collect();
    let own: Vec<&[u8]> = own.iter().map(|step| &step[..]).collect();
    program(&[&[0, 16], &[0, 16], &[]], &[&own, &own, &[&step(0, more)]], &[1, 1, 0])
}

#[test]
fn commands_in_all() {
    let text = [P_COMMANDS; 128].join(",");
    // Three blocks of program.
    assert_eq!(image(&full(&[])).len(), 1_536);
    accepted(&full(&[]), 3, 17, 2, &text);
    number(&full(&[&[4, 2]]), 6);
}

#[test]
fn depth_by_arguments_and_by_ifs() {
    // Eight arguments twice over: 7 + 8, then the label in their place.
    let values = int(1).repeat(7);
    let inner = join(&[&[17, 0], &values, &[22, 16]]);
    let outer = join(&[&[4, 0], &values, &inner]);
    let stream = program(&[&[0, 0, 0, 0, 0, 0, 0, 16]], &[&[&step(0, &[&outer])]], &[1, 1, 0]);
    let sevens = "push 0 1,".repeat(7);
    accepted(&stream, 1, 1, 15, &format!("{sevens}{sevens} push 16 0, cons 0, cons 0"));
    // Labels left inside bodies count whichever way is taken.
    let body: Vec<&[u8]> = vec![&[4, 0]; 7];
    let one = when(&boolean(0), &body);
    let tail = |height: usize| {
        let more: Vec<&[u8]> = vec![&[4, 0]; height];
        let mut statements: Vec<&[u8]> = vec![&one, &one];
        statements.extend(more);
        program(&[&[]], &[&[&step(0, &statements)]], &[1, 1, 0])
    };
    let sevens = "cons 0,".repeat(7);
    let text = format!("push 2 0, if 7, {sevens} push 2 0, if 7, {sevens} cons 0, cons 0");
    accepted(&tail(2), 1, 1, 16, &text);
    number(&tail(3), 6);
}
