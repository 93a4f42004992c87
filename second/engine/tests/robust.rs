//! Inputs of any kind and length return; refusals touch nothing, and what a
//! run writes is a table again.
mod common;
mod generator;
use common::*;
use engine::{CheckAnswer, Command, RunAnswer, check, listing, run};
use generator::{Random, encode, source};

/// A run on anything: what a refusal touches, what an ending leaves.
fn any(program: &[u8], table: &[u8], turns: &[u8], room: usize, places: usize) -> u8 {
    let mut output = vec![FILL; room];
    let mut lent = vec![Some(Command::If(99)); places];
    let answer = run(program, table, turns, &mut output, &mut lent);
    if (1..33).contains(&answer.number) {
        assert_eq!(answer, RunAnswer { number: answer.number, ..RunAnswer::default() });
        assert!(output.iter().all(|&byte| byte == FILL));
        assert!(lent.iter().all(|place| *place == Some(Command::If(99))));
    } else {
        let (written, rest) = output.split_at(answer.blocks * 512);
        assert!(rest.iter().all(|&byte| byte == FILL));
        let mut again = vec![0; OUTPUT];
        let next = run(program, written, &[], &mut again, &mut lent);
        assert!(next.number == 0 || next.number == 33);
        assert_eq!((next.turns, next.blocks, next.depth), (0, answer.blocks, answer.depth));
        assert_eq!(&again[..written.len()], written);
    }
    let mut fresh = vec![Some(Command::If(99)); places];
    let checked = check(program, &mut fresh);
    if checked.number != 0 {
        assert_eq!(checked, CheckAnswer { number: checked.number, ..CheckAnswer::default() });
    }
    let listed = String::from_utf8(listing(program)).unwrap();
    assert!(listed.starts_with("audala ") || listed.starts_with("refused "));
    assert!(listed.ends_with('\n'));
    answer.number
}

fn bytes(random: &mut Random, longest: usize) -> Vec<u8> {
    (0..random.below(longest + 1)).map(|_| random.below(256) as u8).collect()
}

#[test]
fn bytes_without_form() {
    let mut random = Random(77);
    for _ in 0..100 {
        let program = bytes(&mut random, 1_200);
        let table = bytes(&mut random, 1_200);
        let turns = bytes(&mut random, 50);
        any(&program, &table, &turns, random.below(9_000), random.below(1_100));
        any(&image(&P), &table, &turns, OUTPUT, 1_024);
        any(&image(&program), &image(&table), &turns, OUTPUT, 1_024);
        any(&image(&P), &image(&table), &turns, OUTPUT, 1_024);
    }
}

fn byte(random: &mut Random, bounds: [usize; 3]) -> u8 {
    let bound = bounds[random.below(3)];
    random.below(bound) as u8
}

/// Small values are likelier to stand at an allowed place.
fn small_bytes(random: &mut Random, longest: usize) -> Vec<u8> {
    (0..1 + random.below(longest)).map(|_| byte(random, [3, 24, 48])).collect()
}

#[test]
fn streams_without_sense() {
    let mut random = Random(78);
    for _ in 0..1_000 {
        let program = small_bytes(&mut random, 200);
        let number = any(&image(&program), &image(&[0, 0]), &[0; 20], OUTPUT, 1_024);
        assert!((4..=8).contains(&number) || number == 0 || number >= 33);
    }
}

#[test]
fn programs_with_changed_bytes() {
    let mut random = Random(79);
    let mut seen = [0usize; 256];
    for _ in 0..500 {
        let mut stream = encode::stream(&source(&mut random));
        for _ in 0..1 + random.below(2) {
            let place = random.below(stream.len());
            stream[place] = byte(&mut random, [4, 48, 256]);
        }
        let turns = bytes(&mut random, 200);
        let table = image(&table(&[(0, &[])]));
        let none = image(&[0, 0]);
        let given = if random.below(4) == 0 { &table } else { &none };
        seen[usize::from(any(&image(&stream), given, &turns, OUTPUT, 1_024))] += 1;
    }
    println!("{:?}", seen.iter().enumerate().filter(|(_, count)| **count > 0).collect::<Vec<_>>());
    for number in [0, 4, 5, 6, 7, 8, 33, 35] {
        assert!(seen[number] > 0, "{number}");
    }
}

#[test]
fn the_longest_streams() {
    // 32,256 bytes of statements: far too many commands, or an end inside.
    let once = update(&[0], &var(&[1, 1, 1, 0]));
    let deep = when(&boolean(1), &[&once[..]; 32]);
    let body: Vec<&[u8]> = vec![&deep; 32];
    let steps: Vec<Vec<u8>> = (0..8).map(|name| step(name, &body)).collect();
    let steps: Vec<&[u8]> = steps.iter().map(|step| &step[..]).collect();
    let whole = program(&[&[0, 16]], &[&steps], &[1, 1, 0]);
    assert!(whole.len() > 32_256);
    refused(&whole[..32_256], 4);
    let fitting = program(&[&[0, 16]], &[&steps[..2]], &[1, 1, 0]);
    refused(&fitting, 6);
    for fill in [0, 1, 3, 16, 17, 21, 22, 41, 255] {
        let stream = join(&[&P[..6], &[32], &vec![fill; 32_249]]);
        refused(&stream, 5);
    }
}
