//! 01's "slips seen before", one or more cases for each.
mod common;
use common::*;

const FIX: [u8; 5] = [1, 3, 1, 1, 0];

#[test]
fn null_instances_run() {
    let stream =
        program(&[&[], &[1]], &[&[&step(0, &[&join(&[&[4, 1], &nat(7)])])], &[]], &[1, 1, 0]);
    accepted(&stream, 2, 1, 1, "push 1 7, cons 1");
    runs(&stream, &table(&[]), &[9, 9], 0, 2, &table(&[(1, &[7])]));
}

#[test]
fn own_writes_of_a_null_instance_are_dropped_and_stable() {
    let stream = program(&[&[0]], &[&[&step(0, &[&update(&[0], &int(5))])]], &FIX);
    accepted(&stream, 1, 1, 2, "push 0 5, push this, wr 0");
    runs(&stream, &table(&[]), &[0; 9], 0, 3, &table(&[]));
    // The record changes in the first passage and not in the second.
    runs(&stream, &table(&[(0, &[4])]), &[0; 20], 0, 12, &table(&[(0, &[5])]));
    runs(&stream, &table(&[(0, &[5])]), &[0; 20], 0, 6, &table(&[(0, &[5])]));
}

#[test]
fn writes_to_a_null_instance_from_elsewhere_are_dropped() {
    // prev.load := 5, then load := prev.load.
    let first = update(&[1, 0], &int(5));
    let second = update(&[0], &var(&[1, 0]));
    let stream = program(&[&[0, 16]], &[&[&step(0, &[&first, &second])]], &FIX);
    let text = "push 0 5, push this, rd 1, wr 0, push this, rd 1, rd 0, push this, wr 0";
    accepted(&stream, 1, 1, 2, text);
    runs(&stream, &table(&[(0, &[0, 0])]), &[0; 40], 0, 18, &table(&[(0, &[0, 0])]));
    runs(&stream, &table(&[(0, &[3, 0])]), &[0; 40], 0, 36, &table(&[(0, &[0, 0])]));
}

#[test]
fn locals_of_a_null_instance_are_written() {
    let body: &[u8] = &join(&[&[4, 0], &var(&[8])]);
    let statements: [&[u8]; 2] =
        [&declare(0, 8, &int(6)), &when(&op(32, &var(&[8]), &int(6)), &[body])];
    let stream = program(&[&[0]], &[&[&step(0, &statements)]], &[1, 1, 0]);
    let text = "push 0 6, push this, wr 8, push this, rd 8, push 0 6, op 32 int, if 3, \
                push this, rd 8, cons 0";
    accepted(&stream, 1, 1, 2, text);
    runs(&stream, &table(&[]), &[0; 11], 0, 11, &table(&[(0, &[6])]));
}

/// flag := left op (1 / 0 = 1).
fn cut_short(byte: u8, left: u8) -> Vec<u8> {
    let right = op(32, &op(39, &int(1), &int(0)), &int(1));
    let whole = op(byte, &boolean(left), &right);
    program(&[&[2]], &[&[&step(0, &[&update(&[0], &whole)])]], &[1, 1, 0])
}

#[test]
fn both_sides_of_and_and_or_are_evaluated() {
    for (byte, left) in [(43, 0), (43, 1), (44, 0), (44, 1)] {
        runs(&cut_short(byte, left), &table(&[]), &[0; 20], 35, 3, &table(&[]));
    }
}

#[test]
fn a_constructor_makes_unstable() {
    // Only the null instance of struct 0 constructs, in a Fix: it never ends.
    let stream = program(&[&[], &[]], &[&[&step(0, &[&[4, 1]])], &[]], &FIX);
    let full = vec![(1u8, &[][..]); 254];
    runs(&stream, &table(&[]), &[0; 300], 34, 254, &table(&full));
    runs(&stream, &table(&[]), &[0; 254], 33, 254, &table(&full));
    runs(&stream, &table(&[]), &[0; 2], 33, 2, &table(&full[..2]));
}

#[test]
fn a_constructor_makes_the_outer_fix_unstable() {
    // Fix(Fix(0.0)): "if not done then { done := true; construct 1 }". The
    // null instance's mark is dropped, so it constructs in each passage.
    let grow: &[u8] = &[4, 1];
    let mark = update(&[0], &boolean(1));
    let statement = when(&join(&[&[16], &var(&[0])]), &[&mark, grow]);
    let stream =
        program(&[&[2], &[]], &[&[&step(0, &[&statement])], &[]], &[1, 3, 1, 3, 1, 2, 0, 0]);
    let full = vec![(1u8, &[][..]); 254];
    runs(&stream, &table(&[]), &[0; 3_000], 34, 254 * 8 + 7, &table(&full));
}

#[test]
fn a_change_clears_every_entry() {
    // Fix(Fix(1) < 2): step 1 is "if n < 3 then n := n + 1", step 2 empty.
    let grow = update(&[0], &op(41, &var(&[0]), &int(1)));
    let one = step(1, &[&when(&op(36, &var(&[0]), &int(3)), &[&grow])]);
    let schedule = [1, 3, 2, 3, 1, 1, 1, 1, 2];
    let stream = program(&[&[0]], &[&[&one, &step(2, &[])]], &schedule);
    let text = "push this, rd 0, push 0 3, op 36 int, if 6, push this, rd 0, push 0 1, \
                op 41 int, push this, wr 0";
    accepted(&stream, 1, 2, 2, text);
    // Three passages: a change, none, and once more by the outer Fix. The
    // null instance takes 11 in each, the record 11, 5 and 5.
    runs(&stream, &table(&[(0, &[2])]), &[0; 99], 0, 54, &table(&[(0, &[3])]));
    // No change at all: one passage.
    runs(&stream, &table(&[(0, &[3])]), &[0; 99], 0, 16, &table(&[(0, &[3])]));
}
