//! Numbers 9 to 14 of 01's "Numbers from the input", and their order.
mod common;
use common::*;
use engine::{CheckAnswer, check};

/// One struct (Bool, itself) and one (Int, Nat, struct 0), an empty step.
fn two_structs() -> Vec<u8> {
    program(&[&[2, 16], &[0, 1, 16]], &[&[&step(0, &[])], &[]], &[1, 1, 0])
}

#[track_caller]
fn refuses_image(table: &[u8], number: u8) {
    input_refusal(&image(&two_structs()), table, &[], OUTPUT, 1_024, number);
}

#[track_caller]
fn refuses(stream: &[u8], number: u8) {
    refuses_image(&image(stream), number);
}

/// The table is accepted and, the step being empty, comes back as it is.
#[track_caller]
fn takes(stream: &[u8]) {
    runs(&two_structs(), stream, &[], 0, 0, stream);
}

#[test]
fn nine_for_the_length() {
    let good = image(&table(&[]));
    for length in [0, 1, 511, 513, 8_703, 8_705, 9_216, 32_768] {
        let mut bytes = good.clone();
        bytes.resize(length, 0);
        refuses_image(&bytes, 9);
    }
    let mut longest = good;
    longest.resize(8_704, 0);
    refuses_image(&longest, 10);
}

#[test]
fn ten_for_sums_index_used_count_and_unused_bytes() {
    let good = image(&table(&[(0, &[1, 2])]));
    for place in 0..512 {
        let mut bytes = good.clone();
        bytes[place] ^= 0x40;
        refuses_image(&bytes, 10);
    }
    for (place, byte) in [(0, 1), (1, 1), (2, 0), (3, 2), (20, 1), (507, 9)] {
        let mut bytes = good.clone();
        bytes[place] = byte;
        seal(&mut bytes);
        refuses_image(&bytes, 10);
    }
    refuses_image(&image(&[]), 10);
}

#[test]
fn eleven_for_the_end() {
    let good = table(&[(0, &[1, 2]), (1, &[-5, 4_294_967_295, 2])]);
    takes(&good);
    for length in 1..good.len() {
        refuses(&good[..length], 11);
    }
    refuses(&join(&[&good, &[0]]), 11);
    refuses(&join(&[&good, &[255; 1_000]]), 11);
    refuses(&[0, 0, 0], 11);
    // One byte of N alone, whatever it says.
    refuses(&[255], 11);
}

#[test]
fn twelve_for_count_struct_and_value() {
    refuses(&[255, 0], 12);
    refuses(&[0, 1], 12);
    refuses(&[255, 255], 12);
    refuses(&[254, 0], 11);
    refuses(&table(&[(2, &[])]), 12);
    refuses(&table(&[(255, &[])]), 12);
    for wrong in [2, 256, 65_536, 16_777_216, 4_294_967_295] {
        refuses(&table(&[(0, &[wrong, 0])]), 12);
    }
    takes(&table(&[(0, &[1, 0]), (0, &[0, 0])]));
    takes(&table(&[(1, &[i64::from(i32::MIN), 4_294_967_295, 0])]));
}

#[test]
fn eleven_or_twelve_by_the_first_place() {
    // A wrong Bool, then the end missing; a missing end before a wrong byte.
    let wrong = table(&[(0, &[2, 0]), (0, &[0, 0])]);
    refuses(&wrong, 12);
    refuses(&wrong[..9], 12);
    refuses(&wrong[..7], 12);
    // Inside the wrong value the stream ends before it is a value.
    refuses(&wrong[..6], 11);
    refuses(&wrong[..4], 11);
    refuses(&table(&[(0, &[1, 0]), (9, &[])]), 12);
    // A struct byte not allowed comes before all that would follow.
    refuses(&[2, 0, 9], 12);
    refuses(&join(&[&wrong, &[0; 9]]), 12);
}

#[test]
fn references_name_existing_labels_of_their_struct() {
    // Labels: 0 and 1 null, then 2 of struct 0, 3 of struct 1, 4 of 0.
    for (label, right) in [(0, true), (1, false), (2, true), (3, false), (4, true), (5, false)] {
        let records = [(0, &[0, label][..]), (1, &[0, 0, label][..]), (0, &[1, 0][..])];
        if right { takes(&table(&records)) } else { refuses(&table(&records), 12) }
    }
    for label in [255, 256, 258, 65_538, 4_294_967_295, 2_147_483_650] {
        refuses(&table(&[(0, &[0, label])]), 12);
    }
}

#[test]
fn references_come_last() {
    let wrong = table(&[(0, &[0, 1]), (0, &[0, 0])]);
    refuses(&wrong, 12);
    refuses(&wrong[..wrong.len() - 1], 11);
    refuses(&wrong[..11], 11);
    refuses(&join(&[&wrong, &[7]]), 11);
}

#[test]
fn program_numbers_come_before_table_numbers() {
    let bad_type = program(&[&[0]], &[&[&step(0, &[&update(&[0], &nat(1))])]], &[1, 1, 0]);
    input_refusal(&image(&bad_type), &[], &vec![0; 65_537], 0, 0, 8);
    input_refusal(&[], &[], &vec![0; 65_537], 0, 0, 1);
    input_refusal(&image(&P), &[], &vec![0; 65_537], 0, 0, 9);
    input_refusal(&image(&P), &[0; 512], &vec![0; 65_537], 0, 0, 10);
    input_refusal(&image(&P), &image(&[1]), &vec![0; 65_537], 0, 0, 11);
    input_refusal(&image(&P), &image(&[1, 1]), &vec![0; 65_537], 0, 0, 12);
    let none = image(&table(&[]));
    input_refusal(&image(&P), &none, &vec![0; 65_537], OUTPUT, 1_023, 13);
    input_refusal(&image(&P), &none, &vec![0; 65_537], OUTPUT - 1, 1_024, 13);
    input_refusal(&image(&P), &none, &vec![0; 65_537], OUTPUT, 1_024, 14);
}

#[test]
fn thirteen_at_its_edges() {
    let none = image(&table(&[]));
    for (room, places) in [(0, 1_024), (8_703, 2_000), (8_704, 0), (9_000, 1_023)] {
        input_refusal(&image(&P), &none, &[0; 8], room, places, 13);
    }
    let mut output = vec![FILL; 8_704];
    let mut lent = vec![None; 1_024];
    let answer = engine::run(&image(&P), &none, &[0; 8], &mut output, &mut lent);
    assert_eq!((answer.number, answer.turns, answer.blocks, answer.depth), (0, 8, 1, 2));
    assert_eq!(output[..512], image(&table(&[])));
    assert_eq!(output[512..], [FILL; 8_192]);
    assert!(lent[8..].iter().all(Option::is_none));
}

#[test]
fn thirteen_for_the_list_of_a_check() {
    for places in [0, 8, 1_023] {
        let mut lent = list();
        lent.truncate(places);
        let before = lent.clone();
        let refusal = CheckAnswer { number: 13, ..CheckAnswer::default() };
        assert_eq!(check(&image(&P), &mut lent), refusal);
        assert_eq!(lent, before);
        assert_eq!(check(&image(&nameless()), &mut lent).number, 7);
    }
    let mut lent = vec![None; 1_024];
    assert_eq!(check(&image(&P), &mut lent).number, 0);
}

fn nameless() -> Vec<u8> {
    join(&[&P[..20], &[9]])
}

#[test]
fn fourteen_at_its_edge() {
    let none = table(&[]);
    runs(&P, &none, &vec![0; 65_536], 0, 8, &none);
    input_refusal(&image(&P), &image(&none), &vec![0; 65_537], OUTPUT, 1_024, 14);
    input_refusal(&image(&P), &image(&none), &vec![0; 200_000], OUTPUT, 1_024, 14);
}
