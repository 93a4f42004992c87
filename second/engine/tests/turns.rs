//! Sentences of 01's "Table and turns" and "Numbers from the state", with the
//! counting of 02 §5.
mod common;
use common::*;

const ONCE: [u8; 3] = [1, 1, 0];

/// Each instance of struct 0 constructs a struct 1 with its own number.
fn mark() -> Vec<u8> {
    let construct = join(&[&[4, 1], &var(&[0])]);
    program(&[&[1], &[1]], &[&[&step(0, &[&construct])], &[]], &ONCE)
}

#[test]
fn the_byte_goes_modulo_the_holders_from_behind_the_last_actor() {
    // Labels 0 (null, 0), 2 (20), 4 (40) hold; label 3 is of struct 1.
    let before = [(0, &[20][..]), (1, &[9][..]), (0, &[40][..])];
    let run = |turns: &[u8], marks: [i64; 3]| {
        let mut after = before.to_vec();
        after.extend(marks.iter().map(|mark| (1, std::slice::from_ref(mark))));
        runs(&mark(), &table(&before), turns, 0, 9, &table(&after));
    };
    // One command of each in turn: the labels are taken by who constructs.
    run(&[0; 9], [0, 20, 40]);
    // 2, 0, 4 twice; 2 again, 0 as the second from 4 on, 4.
    run(&[1; 9], [20, 0, 40]);
    // 4 three times, as the last from 0 on; then 0 and 2 in turn.
    run(&[2; 9], [40, 0, 20]);
    // 255 and 254 modulo 3 are 0 and 2; modulo 2 they are 1 and 0; alone 0.
    run(&[255, 255, 255, 255, 255, 255, 255, 255, 79], [0, 40, 20]);
    run(&[254, 254, 254, 254, 254, 254, 254, 254, 3], [40, 0, 20]);
    // Each order there is, one after the other.
    for order in [[0, 2, 4], [0, 4, 2], [2, 0, 4], [2, 4, 0], [4, 0, 2], [4, 2, 0]] {
        let labels = blocks_of(&order.map(|label| (3, label)));
        let marks = order.map(|label| 10 * label as i64);
        run(&in_order(&[3, 0, 3, 0, 3], &labels), marks);
    }
}

#[test]
fn the_count_goes_on_behind_a_move() {
    // The step twice, on labels 0, 2 and 4 as above: whoever acted last in the
    // first passage, the second one begins behind it.
    let twice = join(&[&mark()[..mark().len() - 3], &[2, 1, 0, 1, 0]]);
    let before = [(0, &[20][..]), (1, &[9][..]), (0, &[40][..])];
    for (first, second) in [
        ([0, 2, 4], [0, 2, 4]),
        ([2, 4, 0], [2, 4, 0]),
        ([4, 0, 2], [4, 0, 2]),
        ([2, 0, 4], [0, 2, 4]),
        ([4, 2, 0], [2, 4, 0]),
        ([0, 4, 2], [4, 0, 2]),
    ] {
        let labels = blocks_of(&first.map(|label| (3, label)));
        let turns = [in_order(&[3, 0, 3, 0, 3], &labels), vec![0; 9]].concat();
        let marks: Vec<i64> = first.iter().chain(&second).map(|&label| 10 * label as i64).collect();
        let marks = marks.iter().map(|mark| (1, std::slice::from_ref(mark)));
        let after: Vec<_> = before.into_iter().chain(marks).collect();
        runs(&twice, &table(&before), &turns, 0, 18, &table(&after));
    }
}

#[test]
fn the_last_actor_need_not_hold_commands_again() {
    // Struct 1, labels 1 and 3, has step 1 alone, which one of the records ends;
    // then step 0 begins behind its label, on 0, 2 and 4, and past the highest.
    let construct = join(&[&[4, 1], &var(&[0])]);
    let set = update(&[0], &nat(9));
    let steps: [&[&[u8]]; 2] = [&[&step(0, &[&construct])], &[&step(1, &[&set])]];
    let stream = program(&[&[1], &[1]], &steps, &[2, 1, 1, 1, 0]);
    let before = [(0, &[20][..]), (1, &[9][..]), (0, &[40][..])];
    for (last, marks) in [(3, [40, 0, 20]), (1, [20, 40, 0])] {
        let first = in_order(&[0, 3, 0, 3, 0], &blocks_of(&[(3, 4 - last), (3, last)]));
        let marks = marks.iter().map(|mark| (1, std::slice::from_ref(mark)));
        let after: Vec<_> = before.into_iter().chain(marks).collect();
        runs(&stream, &table(&before), &[&first[..], &[0; 9]].concat(), 0, 15, &table(&after));
    }
}

#[test]
fn an_instance_made_behind_the_actor_is_not_counted() {
    // Each constructs its like with n + 1, then a struct 1 with its n. While
    // the step lasts, the new labels behind 2 hold nothing and are passed over.
    let like = join(&[&[4, 0], &op(41, &var(&[0]), &nat(1))]);
    let mark = join(&[&[4, 1], &var(&[0])]);
    let stream = program(&[&[1], &[1]], &[&[&step(0, &[&like, &mark])], &[]], &ONCE);
    let after = [(0, &[5][..]), (0, &[1]), (0, &[6]), (1, &[0]), (1, &[5])];
    runs(&stream, &table(&[(0, &[5])]), &[0; 16], 0, 16, &table(&after));
    // Label 2 alone up to its last command, by ones past label 0.
    let after = [(0, &[5][..]), (0, &[6]), (1, &[5]), (0, &[1]), (1, &[0])];
    runs(&stream, &table(&[(0, &[5])]), &[1; 16], 0, 16, &table(&after));
}

#[test]
fn the_step_stops_where_the_bytes_do() {
    let before = table(&[(0, &[20])]);
    let middle = table(&[(0, &[20]), (1, &[20])]);
    let after = table(&[(0, &[20]), (1, &[20]), (1, &[0])]);
    runs(&mark(), &before, &[], 33, 0, &before);
    runs(&mark(), &before, &[1; 2], 33, 2, &before);
    runs(&mark(), &before, &[1; 5], 33, 5, &middle);
    runs(&mark(), &before, &[1; 6], 0, 6, &after);
    runs(&mark(), &before, &[1; 600], 0, 6, &after);
}

#[test]
fn new_instances_wait_for_a_later_item() {
    // Step 0: construct one's like with n + 1. Twice from one null instance.
    let construct = join(&[&[4, 0], &op(41, &var(&[0]), &int(1))]);
    let own = step(0, &[&construct]);
    let stream = program(&[&[0]], &[&[&own]], &[2, 1, 0, 2, 0, 0]);
    // Behind the first item label 0 acted last: the new label 1 comes first.
    let after = table(&[(0, &[1]), (0, &[2]), (0, &[1])]);
    runs(&stream, &table(&[]), &[0; 15], 0, 15, &after);
    runs(&stream, &table(&[]), &[0; 5], 33, 5, &table(&[(0, &[1])]));
}

#[test]
fn a_step_starts_on_those_that_have_it() {
    let set = |value| update(&[0], &int(value));
    let stream = |schedule: &[u8]| {
        let (one, two) = (step(4, &[&set(1)]), step(4, &[&set(2)]));
        let other = step(5, &[&set(3)]);
        program(&[&[0], &[0], &[0]], &[&[&one], &[&other, &two], &[]], schedule)
    };
    let before = table(&[(0, &[0]), (1, &[0]), (2, &[0])]);
    let after = |a, b| table(&[(0, &[a]), (1, &[b]), (2, &[0])]);
    runs(&stream(&[1, 1, 4]), &before, &[0; 99], 0, 12, &after(1, 2));
    runs(&stream(&[1, 2, 0, 4]), &before, &[0; 99], 0, 6, &after(1, 0));
    runs(&stream(&[1, 2, 1, 4]), &before, &[0; 99], 0, 6, &after(0, 2));
    runs(&stream(&[1, 1, 5]), &before, &[0; 99], 0, 6, &after(0, 3));
    runs(&stream(&[2, 1, 5, 1, 4]), &before, &[0; 99], 0, 18, &after(1, 2));
    runs(&stream(&[2, 1, 4, 1, 5]), &before, &[0; 99], 0, 18, &after(1, 3));
}

#[test]
fn empty_steps_take_no_turn() {
    let empty = step(0, &[]);
    let set = step(1, &[&update(&[0], &int(5))]);
    let stream =
        program(&[&[0]], &[&[&empty, &set]], &[3, 1, 0, 3, 2, 1, 0, 1, 1, 3, 1, 3, 1, 1, 0]);
    runs(&stream, &table(&[(0, &[4])]), &[0; 99], 0, 12, &table(&[(0, &[5])]));
    let nothing = program(&[&[0]], &[&[&empty]], &[2, 3, 1, 1, 0, 1, 0]);
    runs(&nothing, &table(&[(0, &[4])]), &[], 0, 0, &table(&[(0, &[4])]));
    runs(&nothing, &table(&[(0, &[4])]), &[1, 2, 3], 0, 0, &table(&[(0, &[4])]));
}

/// An entry stands for each Fix around the one met, so none is met with
/// eight: the eighth ends as any other, and a ninth is no program.
#[test]
fn eight_fixes_end_and_nine_are_no_program() {
    let set = step(0, &[&update(&[0], &int(5))]);
    let nested =
        |levels| program(&[&[0]], &[&[&set]], &join(&[&[1, 3].repeat(levels), &[1, 1, 0]]));
    // A passage takes 3 of either instance. The first one changes the record,
    // and then every Fix goes round once more, the innermost first.
    for levels in 0..=8 {
        let taken = 6 * (levels + 1);
        runs(&nested(levels), &table(&[(0, &[4])]), &[0; 99], 0, taken, &table(&[(0, &[5])]));
        runs(&nested(levels), &table(&[(0, &[5])]), &[0; 99], 0, 6, &table(&[(0, &[5])]));
    }
    refused(&nested(9), 5);
}

#[test]
fn a_later_start_empties_the_stack() {
    // 14 labels stay on the stack; a second passage needs all of it again.
    let mut statements: Vec<&[u8]> = vec![&[4, 1]; 14];
    let set = update(&[0], &int(1));
    statements.push(&set);
    let own = step(0, &statements);
    let stream = program(&[&[0], &[]], &[&[&own], &[]], &[3, 1, 0, 1, 0, 1, 0]);
    let after = vec![(1u8, &[][..]); 42];
    runs(&stream, &table(&[]), &[0; 51], 0, 51, &table(&after));
}

#[test]
fn ifs_both_ways_nested() {
    // if a then { n := n + 1; if b then n := n + 10 }; n := n + 100.
    let add = |value| update(&[0], &op(41, &var(&[0]), &int(value)));
    let inner = when(&var(&[2]), &[&add(10)]);
    let outer = when(&var(&[1]), &[&add(1), &inner]);
    let stream = program(&[&[0, 2, 2]], &[&[&step(0, &[&outer, &add(100)])]], &ONCE);
    // The null instance takes 3 + 6, passing over 15 commands.
    for (a, b, taken, sum) in [(0, 0, 9, 100), (0, 1, 9, 100), (1, 0, 18, 101), (1, 1, 24, 111)] {
        let after = table(&[(0, &[sum, a, b])]);
        runs(&stream, &table(&[(0, &[0, a, b])]), &[0; 99], 0, 9 + taken, &after);
    }
    // An if that ends its step, passed over and taken.
    let stream = program(&[&[0, 2, 2]], &[&[&step(0, &[&when(&var(&[1]), &[&add(1)])])]], &ONCE);
    runs(&stream, &table(&[(0, &[0, 0, 0])]), &[0; 6], 0, 6, &table(&[(0, &[0, 0, 0])]));
    runs(&stream, &table(&[(0, &[0, 1, 0])]), &[0; 12], 0, 12, &table(&[(0, &[1, 1, 0])]));
}

#[test]
fn two_hundred_and_fifty_six_instances() {
    let full = |count| vec![(0u8, &[][..]); count];
    let stream = program(&[&[]], &[&[&step(0, &[&[4, 0]])]], &ONCE);
    // 255 records: the very first cons is refused, no turn counted.
    runs(&stream, &table(&full(255)), &[0; 9], 34, 0, &table(&full(255)));
    runs(&stream, &table(&full(255)), &[], 33, 0, &table(&full(255)));
    runs(&stream, &table(&full(254)), &[200; 9], 34, 1, &table(&full(255)));
    // All 256 hold: from label 0 on, and so behind 255, the byte is the label.
    let set = update(&[0], &op(41, &var(&[0]), &nat(1)));
    let count = program(&[&[1]], &[&[&step(0, &[&set])]], &ONCE);
    let zero = vec![(0u8, &[0i64][..]); 255];
    let mut after = zero.clone();
    after[254].1 = &[1];
    runs(&count, &table(&zero), &[255; 6], 33, 6, &table(&after));
    // Label 255 is done: 255 modulo 255 is 0, the null instance and those
    // behind it, one command of each.
    runs(&count, &table(&zero), &[255; 12], 33, 12, &table(&after));
    after[253].1 = &[1];
    runs(&count, &table(&zero), &[&[255; 6][..], &[254; 6]].concat(), 33, 12, &table(&after));
}

#[test]
fn the_largest_table_and_a_just_full_block() {
    let wide = program(&[&[1; 8], &[]], &[&[&step(0, &[])], &[]], &ONCE);
    let values: [i64; 8] = [4_294_967_295, 1, 2, 3, 4, 5, 6, 7];
    let largest = table(&vec![(0, &values[..]); 254]);
    assert_eq!(image(&largest).len(), 17 * 512);
    runs(&wide, &largest, &[], 0, 0, &largest);
    for (small, blocks) in [(6, 1), (7, 1), (8, 2)] {
        let mut records = vec![(0u8, &values[..]); 15];
        records.extend(vec![(1u8, &[][..]); small]);
        assert_eq!(image(&table(&records)).len(), blocks * 512);
        runs(&wide, &table(&records), &[], 0, 0, &table(&records));
    }
}

#[test]
fn a_refused_command_leaves_what_was_before() {
    // n := 7, then a construct with n / 0: the first write stays.
    let set = update(&[0], &int(7));
    let fail = join(&[&[4, 0], &op(39, &var(&[0]), &int(0))]);
    let stream = program(&[&[0]], &[&[&step(0, &[&set, &fail])]], &ONCE);
    runs(&stream, &table(&[(0, &[1])]), &[1; 99], 35, 6, &table(&[(0, &[7])]));
    // 33 comes only when the byte is missing, before the command is looked at.
    runs(&stream, &table(&[(0, &[1])]), &[1; 6], 33, 6, &table(&[(0, &[7])]));
}

#[test]
fn constructor_arguments_stand_in_order() {
    let values = join(&[&int(-1), &nat(2), &boolean(1), &[23], &[22, 16]]);
    let other = join(&[&[4, 1], &values]);
    let stream = program(&[&[], &[0, 1, 2, 16, 16]], &[&[&step(0, &[&other])], &[]], &ONCE);
    let first = [0, 0, 0, 0, 0];
    let before = [(0u8, &[][..]), (1, &first)];
    let after = [before[0], before[1], (1, &[-1, 2, 1, 2, 0]), (1, &[-1, 2, 1, 0, 0])];
    runs(&stream, &table(&before), &[1, 1, 1, 1, 1, 1, 0, 0, 0, 0, 0, 0], 0, 12, &table(&after));
}

#[test]
fn locals_hold_their_value_while_others_run() {
    // local := load; load := 100; total := local: races between two records.
    let statements: [&[u8]; 3] =
        [&declare(0, 15, &var(&[1, 0])), &update(&[1, 0], &int(100)), &update(&[2], &var(&[15]))];
    let stream = program(&[&[0, 16, 0]], &[&[&step(0, &statements)]], &ONCE);
    let before = table(&[(0, &[5, 1, 0]), (0, &[6, 1, 0])]);
    let after = |a, b| table(&[(0, &[100, 1, a]), (0, &[6, 1, b])]);
    let run = |parts: &[(usize, usize)], a, b| {
        let turns = in_order(&[13; 3], &blocks_of(parts));
        runs(&stream, &before, &turns, 0, 39, &after(a, b));
    };
    run(&[(13, 0), (13, 1), (13, 2)], 5, 100);
    run(&[(13, 0), (5, 1), (13, 2), (8, 1)], 5, 5);
    run(&[(13, 0), (13, 2), (13, 1)], 100, 5);
    runs(&stream, &before, &[0; 39], 0, 39, &after(5, 5));
}
