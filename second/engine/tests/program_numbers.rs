//! Numbers 1 to 8 of 01's "Numbers from the input", and their order.
mod common;
use common::*;

#[test]
fn one_for_the_length() {
    let good = image(&P);
    for length in [0, 1, 511, 513, 1_023, 1_025, 32_769, 33_280, 65_536] {
        let mut bytes = good.clone();
        bytes.resize(length, 0);
        refused_image(&bytes, 1);
    }
    // 64 blocks are looked at: the first says that the stream ends there.
    let mut longest = good;
    longest.resize(32_768, 0);
    refused_image(&longest, 3);
}

#[test]
fn two_for_any_changed_byte() {
    for place in 0..512 {
        let mut bytes = image(&P);
        bytes[place] ^= 0x10;
        refused_image(&bytes, 2);
    }
    // Two bytes exchanged leave sum A as it was.
    let mut bytes = image(&P);
    bytes.swap(6, 7);
    refused_image(&bytes, 2);
}

/// P's image with some bytes put in and the sums corrected.
fn sealed(changes: &[(usize, u8)]) -> Vec<u8> {
    let mut bytes = image(&P);
    for &(place, byte) in changes {
        bytes[place] = byte;
    }
    seal(&mut bytes);
    bytes
}

#[test]
fn three_for_index_used_count_and_unused_bytes() {
    refused_image(&sealed(&[(0, 1)]), 3);
    refused_image(&sealed(&[(1, 1)]), 3);
    refused_image(&sealed(&[(2, 0)]), 3);
    refused_image(&sealed(&[(2, 249), (3, 1)]), 3);
    refused_image(&sealed(&[(3, 255)]), 3);
    refused_image(&sealed(&[(25, 1)]), 3);
    refused_image(&sealed(&[(507, 1)]), 3);
    refused_image(&image(&[]), 3);
    // One used byte less makes that byte an unused one, here a zero.
    refused_image(&sealed(&[(2, 20)]), 4);
    // Every block but the last uses 504.
    let mut bytes = [image(&P), image(&P)].concat();
    bytes[512] = 1;
    seal(&mut bytes[512..]);
    refused_image(&bytes, 3);
}

#[test]
fn blocks_in_order_and_two_before_three_in_each() {
    let two_blocks = image(&[P.to_vec(), vec![0; 600]].concat());
    let mut bytes = two_blocks.clone();
    bytes[0] = 7;
    seal(&mut bytes[..512]);
    bytes[1_000] ^= 1;
    refused_image(&bytes, 3);
    let mut bytes = two_blocks.clone();
    bytes[100] ^= 1;
    bytes[512] = 7;
    seal(&mut bytes[512..]);
    refused_image(&bytes, 2);
    let mut bytes = two_blocks;
    bytes[512] = 7;
    refused_image(&bytes, 2);
}

#[test]
fn four_wherever_the_stream_ends() {
    for length in 1..P.len() {
        refused(&P[..length], 4);
    }
    refused(&[&P[..], &[0]].concat(), 4);
    refused(&[&P[..], &[255; 600]].concat(), 4);
    // Inside a literal's four bytes.
    let stream = program(&[&[0]], &[&[&step(0, &[&update(&[0], &int(7))])]], &[1, 1, 0]);
    for length in 1..stream.len() {
        refused(&stream[..length], 4);
    }
}

/// P with one byte changed.
fn changed(place: usize, byte: u8) -> Vec<u8> {
    let mut stream = P.to_vec();
    stream[place] = byte;
    stream
}

#[test]
fn five_for_each_kind_of_byte() {
    let wrong: [(usize, &[u8]); 16] = [
        (0, &[0, 17, 255]),
        (1, &[9, 255]),
        (2, &[3, 15, 17, 31, 255]),
        (4, &[9, 255]),
        (5, &[32, 255]),
        (6, &[33, 255]),
        (7, &[0, 5, 16, 255]),
        (8, &[0, 5, 255]),
        (9, &[16, 255]),
        (10, &[0, 15, 24, 31, 45, 255]),
        (12, &[0, 5]),
        (15, &[0, 5]),
        (17, &[8, 15, 16, 255]),
        (18, &[0, 33, 255]),
        (19, &[0, 4, 255]),
        (20, &[32, 255]),
    ];
    for (place, bytes) in wrong {
        for &byte in bytes {
            refused(&changed(place, byte), 5);
        }
    }
}

#[test]
fn five_inside_the_other_forms() {
    let with = |statement: &[u8]| program(&[&[0]], &[&[&step(0, &[statement])]], &[1, 1, 0]);
    for of in [3, 15, 17] {
        refused(&with(&declare(of, 8, &int(1))), 5);
        refused(&with(&update(&[0], &[22, of])), 5);
    }
    for local in [0, 7, 16, 255] {
        refused(&with(&declare(0, local, &int(1))), 5);
    }
    refused(&with(&update(&[0], &[21, 2])), 5);
    refused(&with(&[4, 1]), 5);
    refused(&with(&[4, 16, 19, 0, 0, 0, 0]), 5);
    refused(&with(&update(&[0], &[17, 1])), 5);
    refused(&with(&[1, 21, 1, 33]), 5);
    // Schedule: typed step's struct and name, an empty Fix, a long one.
    for schedule in [&[1, 2, 1, 0][..], &[1, 2, 0, 32], &[1, 3, 0], &[1, 3, 33]] {
        refused(&join(&[&P[..18], schedule]), 5);
    }
}

#[test]
fn four_and_five_by_the_first_place() {
    // The bad byte stands before the end, so nothing behind it counts.
    refused(&[17], 5);
    refused(&[1, 2, 0, 17], 5);
    refused(&[1, 2, 0], 4);
    refused(&join(&[&changed(20, 32), &[1]]), 5);
    // A missing byte inside comes before what would be wrong behind.
    refused(&join(&[&P[..19], &[1]]), 4);
}

/// A program of one struct (Int, Nat, itself, Bool) with these statements.
fn with(statements: &[&[u8]]) -> Vec<u8> {
    program(&[&[0, 1, 16, 2]], &[&[&step(0, statements)]], &[1, 1, 0])
}

#[test]
fn six_comes_before_seven_and_eight() {
    let one = update(&[0], &boolean(1));
    let bad: Vec<&[u8]> = vec![&one; 22];
    refused(&with(&bad[..21]), 8);
    refused(&with(&bad), 6);
    let nameless = update(&[9], &int(1));
    refused(&with(&[&nameless]), 7);
    let long: Vec<&[u8]> = vec![&nameless; 22];
    refused(&with(&long), 6);
    // 65 items, none of them a step that exists.
    let items = join(&[&[3], &[3, 31], &[1, 9].repeat(31), &[3, 31], &[1, 9].repeat(31), &[1, 9]]);
    refused(&join(&[&P[..18], &items]), 6);
}

#[test]
fn seven_for_names() {
    refused(&with(&[&update(&[4], &int(1))]), 7);
    refused(&with(&[&update(&[0], &var(&[7]))]), 7);
    refused(&with(&[&update(&[8], &int(1))]), 7);
    refused(&with(&[&update(&[0], &var(&[15]))]), 7);
    refused(&with(&[&declare(0, 8, &var(&[8]))]), 7);
    refused(&with(&[&declare(0, 8, &int(1)), &declare(0, 8, &int(2))]), 7);
    let inside = declare(0, 8, &int(1));
    let body = when(&boolean(1), &[&inside]);
    refused(&with(&[&body, &update(&[0], &var(&[8]))]), 7);
    refused(&with(&[&body, &body]), 7);
    refused(&with(&[&body, &inside]), 7);
    refused(&with(&[&inside, &body]), 7);
    // A step name twice, a step that nobody has, one that another has.
    refused(&program(&[&[]], &[&[&step(3, &[]), &step(3, &[])]], &[1, 1, 3]), 7);
    refused(&program(&[&[]], &[&[&step(3, &[])]], &[1, 1, 4]), 7);
    refused(&program(&[&[], &[]], &[&[&step(3, &[])], &[]], &[1, 2, 1, 3]), 7);
    refused(&program(&[&[], &[]], &[&[&step(3, &[])], &[]], &[1, 3, 1, 2, 1, 3]), 7);
}

#[test]
fn names_that_are_right() {
    let one = |local| declare(0, local, &int(1));
    let nested = when(&boolean(1), &[&one(9), &update(&[9], &var(&[8]))]);
    let statements: [&[u8]; 3] = [&one(8), &nested, &update(&[0], &var(&[8]))];
    assert_eq!(check_number(&image(&with(&statements))), 0);
    // The same local in two steps, the same step name in two structs.
    let own = step(0, &[&one(15)]);
    let other = step(31, &[&one(15)]);
    let stream = program(&[&[], &[]], &[&[&own, &other], &[&own]], &[2, 2, 1, 0, 1, 31]);
    assert_eq!(check_number(&image(&stream)), 0);
}

#[test]
fn seven_wins_over_an_earlier_eight() {
    let wrong = update(&[0], &boolean(1));
    refused(&with(&[&wrong]), 8);
    refused(&with(&[&wrong, &update(&[9], &int(1))]), 7);
    refused(&join(&[&with(&[&wrong])[..with(&[&wrong]).len() - 1], &[1]]), 7);
    // A path wrong by type, then one wrong by name inside one expression.
    refused(&with(&[&update(&[0], &op(41, &var(&[0, 0]), &var(&[9])))]), 7);
}
