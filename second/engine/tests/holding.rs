//! 02 §6: how many instances hold commands where a run ends, before the turn
//! that would come next.
mod common;
use common::*;

const RECORD: [i64; 2] = [5, 0];

#[test]
fn a_step_that_waits_for_its_first_turn() {
    for count in [0, 1, 2, 7, 255] {
        let records = table(&vec![(0, &RECORD[..]); count]);
        assert_eq!(runs(&P, &records, &[], 33, 0, &records), count + 1);
    }
}

#[test]
fn one_less_at_each_last_command() {
    // The null instance and two records, of 8 commands each: in turn, so that
    // the last round lowers it, and one after the other.
    let records = table(&[(0, &RECORD), (0, &RECORD)]);
    let one_by_one = in_order(&[8; 3], &blocks_of(&[(8, 0), (8, 2), (8, 1)]));
    for turns in 0..=24 {
        let number = if turns < 24 { 33 } else { 0 };
        let holding = 3 - usize::saturating_sub(turns, 21);
        assert_eq!(runs(&P, &records, &vec![0; turns], number, turns, &records), holding);
        let bytes = &one_by_one[..turns];
        assert_eq!(runs(&P, &records, bytes, number, turns, &records), 3 - turns / 8);
    }
}

#[test]
fn an_if_passed_over_may_be_the_last_command() {
    // if b then n := 1, on the null instance (false) and a true record.
    let body = update(&[1], &int(1));
    let own = step(0, &[&when(&var(&[0]), &[&body])]);
    let stream = program(&[&[2, 0]], &[&[&own]], &[1, 1, 0]);
    let before = table(&[(0, &[1, 0])]);
    assert_eq!(runs(&stream, &before, &[0; 4], 33, 4, &before), 2);
    assert_eq!(runs(&stream, &before, &[0; 5], 33, 5, &before), 1);
    assert_eq!(runs(&stream, &before, &[0; 8], 33, 8, &before), 1);
    assert_eq!(runs(&stream, &before, &[0; 9], 0, 9, &table(&[(0, &[1, 1])])), 0);
}

#[test]
fn moves_come_before_it_is_counted() {
    // Steps 0 (both structs), 1 (no commands) and 2 (struct 1 alone).
    let set = update(&[0], &int(1));
    let (own, empty, last) = (step(0, &[&set]), step(1, &[]), step(2, &[&set]));
    let steps: [&[&[u8]]; 2] = [&[&own, &empty], &[&own, &empty, &last]];
    let stream = program(&[&[0], &[0]], &steps, &[3, 1, 0, 1, 1, 1, 2]);
    let before = table(&[(0, &[0]), (1, &[0]), (1, &[0])]);
    let after = table(&[(0, &[1]), (1, &[1]), (1, &[1])]);
    assert_eq!(runs(&stream, &before, &[], 33, 0, &before), 5);
    // Fifteen commands are over, and the next holders are already there.
    assert_eq!(runs(&stream, &before, &[0; 15], 33, 15, &after), 3);
    assert_eq!(runs(&stream, &before, &[0; 24], 0, 24, &after), 0);
}

#[test]
fn a_new_instance_holds_nothing_until_a_later_item() {
    // Each constructs its like, once and once more.
    let stream = program(&[&[]], &[&[&step(0, &[&[4, 0]])]], &[2, 1, 0, 1, 0]);
    let records = |count| table(&vec![(0, &[][..]); count]);
    for (turns, made, holding) in [(0, 1, 2), (1, 2, 1), (2, 3, 4), (3, 4, 3), (5, 6, 1)] {
        let bytes = vec![0; turns];
        assert_eq!(runs(&stream, &records(1), &bytes, 33, turns, &records(made)), holding);
    }
    assert_eq!(runs(&stream, &records(1), &[0; 6], 0, 6, &records(7)), 0);
}

#[test]
fn a_refused_command_is_still_held() {
    // 255 records construct: the null one, then one of them, then a full table.
    let stream = program(&[&[]], &[&[&step(0, &[&[4, 0]])]], &[1, 1, 0]);
    let records = |count| table(&vec![(0, &[][..]); count]);
    assert_eq!(runs(&stream, &records(255), &[9], 34, 0, &records(255)), 256);
    assert_eq!(runs(&stream, &records(253), &[9; 3], 34, 2, &records(255)), 252);
    // n := 1 / n, which the null instance and the record 0 can't.
    let divide = update(&[0], &op(39, &int(1), &var(&[0])));
    let stream = program(&[&[], &[0]], &[&[], &[&step(0, &[&divide])]], &[1, 2, 1, 0]);
    let before = table(&[(1, &[1]), (1, &[0])]);
    assert_eq!(runs(&stream, &before, &[0; 10], 35, 9, &before), 3);
    assert_eq!(runs(&stream, &before, &[0; 9], 33, 9, &before), 3);
    let commands = [0, 6, 6, 6];
    let null_first = in_order(&commands, &[1; 4]);
    assert_eq!(runs(&stream, &before, &null_first, 35, 3, &before), 3);
    let records = in_order(&commands, &blocks_of(&[(6, 2), (4, 3)]));
    assert_eq!(runs(&stream, &before, &records, 35, 9, &before), 2);
    assert_eq!(runs(&stream, &before, &records[..9], 33, 9, &before), 2);
}

#[test]
fn nothing_after_a_number_from_the_input() {
    let records = image(&table(&[(0, &RECORD)]));
    input_refusal(&image(&P[..20]), &records, &[0; 4], OUTPUT, 1_024, 4);
    input_refusal(&image(&P), &image(&[1, 0]), &[0; 4], OUTPUT, 1_024, 11);
    input_refusal(&image(&P), &records, &[0; 4], OUTPUT - 1, 1_024, 13);
    input_refusal(&image(&P), &records, &vec![0; 65_537], OUTPUT, 1_024, 14);
}
