//! Counts of orders (02 §14) of steps with 13 to 20 commands, which the entry
//! refuses with 24: for an engine whose limit alone was changed (`tools/counts_more.sh`).
//! The steps are generated; in many of them orders disagree.

use crate::counts::Count;
use crate::generate::encode::image;
use crate::generate::random::Random;
use engine::{CountAnswer, Counting, Question};

/// The commands of a step over all instances.
pub const LEAST: usize = 13;
pub const MOST: usize = 20;

/// Steps whose orders disagree, and their orders at most; those whose orders agree.
const DISAGREEING: (usize, usize) = (80, 800_000);
const AGREEING: (usize, usize) = (140, 100_000);

/// Orders of a step at most that are listed one by one too.
pub const MOST_LISTED: usize = 20_000;

/// Struct 0 has a Bool, an Int and a reference to struct 0, and the step; struct 1
/// has nothing.
const BOOL: u8 = 0;
const INT: u8 = 1;
const OTHER: u8 = 2;
const SHAPES: [u8; 6] = [2, 3, 2, 0, 16, 0];

/// More than one of the three counts is not 0.
fn disagrees(answer: &CountAnswer) -> bool {
    [answer.with_true, answer.with_false, answer.stopped].iter().filter(|&&n| n > 0).count() > 1
}

/// The generated cases.
pub fn cases(seed: u64) -> Vec<Count> {
    let mut random = Random::new(seed);
    let (mut made, mut left) = (Vec::new(), [AGREEING, DISAGREEING]);
    while left.iter().any(|(steps, _)| *steps > 0) {
        let case = case(&mut random);
        if case.count_up_to(LEAST - 1, Counting::Summed).number == 0 {
            continue;
        }
        let answer = case.count_up_to(MOST, Counting::Summed);
        let orders = answer.with_true + answer.with_false + answer.stopped;
        let (steps, most) = &mut left[usize::from(disagrees(&answer))];
        if answer.number == 0 && orders <= *most && *steps > 0 {
            *steps -= 1;
            made.push(case);
        }
    }
    made
}

fn case(random: &mut Random) -> Count {
    let records = if random.chance(5) { 3 } else { 1 + random.below(2) };
    let mut table = vec![records as u8, 0];
    for _ in 0..records {
        // Labels 0 and 1 are null; a reference is to 0 or to a record.
        let other = random.below(records + 1);
        let other = if other == 0 { 0 } else { other as u8 + 1 };
        table.extend([0, random.below(2) as u8, 0, 0, 0, random.below(3) as u8, 0, 0, 0]);
        table.extend([other, 0, 0, 0]);
    }
    let mut program = SHAPES.to_vec();
    let statements = 1 + random.below(2);
    program.extend([1, 0, statements as u8]);
    (0..statements).for_each(|_| program.extend(statement(random, 2)));
    program.extend([0, 1, 1, 0]);
    let label = 2 + random.below(records) as u32;
    let question = Question { name: 0, label, parameter: u32::from(BOOL) };
    Count::new(1_024, question, image(&program), image(&table))
}

/// A path to a variable, of the instance itself or of the one that it refers to.
fn path(random: &mut Random, variable: u8) -> Vec<u8> {
    if random.chance(50) { vec![1, variable] } else { vec![2, OTHER, variable] }
}

fn statement(random: &mut Random, nesting: usize) -> Vec<u8> {
    match random.below(10) {
        0..=4 => [vec![3], path(random, BOOL), truth(random)].concat(),
        5 => [vec![3], path(random, INT), number(random)].concat(),
        6 => vec![4, 1],
        _ if nesting == 0 => vec![4, 1],
        _ => [vec![1], truth(random), vec![1], statement(random, nesting - 1)].concat(),
    }
}

fn truth(random: &mut Random) -> Vec<u8> {
    match random.below(6) {
        0 => vec![21, random.below(2) as u8],
        1 => [vec![16, 18], path(random, BOOL)].concat(),
        _ => [vec![18], path(random, BOOL)].concat(),
    }
}

/// A literal, a number that is there, or a literal divided by one.
fn number(random: &mut Random) -> Vec<u8> {
    let literal = vec![19, random.below(3) as u8, 0, 0, 0];
    let there = [vec![18], path(random, INT)].concat();
    match random.below(3) {
        0 => literal,
        1 => there,
        _ => [vec![39], literal, there].concat(),
    }
}
