//! Nanoseconds a command takes, with 2 and with 256 instances.

use crate::cases::OUTPUT_FILL;
use crate::generate::encode::{Record, image, table_stream};
use crate::generate::random::Random;
use engine::run;
use std::fmt::Write;
use std::time::Instant;

const RUNS: usize = 200;

/// Fix(0) with step 0 of struct 0 (Int, struct 0):
/// `if prev = prev.prev or true then load := 1 − load`. It never comes to rest.
const PROGRAM: [u8; 35] = [
    1, 2, 0, 16, 1, 0, 1, 1, 44, 32, 18, 1, 1, 18, 2, 1, 1, 21, 1, 1, 3, 1, 0, 42, 19, 1, 0, 0, 0,
    18, 1, 0, 1, 3, 1,
];

/// One line for each number of instances and kind of turn bytes.
pub fn bench() -> String {
    let program = image(&[&PROGRAM[..], &[1, 0]].concat());
    let mut random = Random::new(1);
    let mixed: Vec<u8> = (0..65_536).map(|_| random.byte()).collect();
    let zeros = vec![0; 65_536];
    let mut text = String::new();
    for instances in [2, 256] {
        for (kind, turns) in [("zero", &zeros), ("random", &mixed)] {
            let time = nanoseconds(&program, instances, turns);
            writeln!(text, "{instances} instances, {kind} turn bytes: {time:.2} ns per command")
                .expect("text grows");
        }
    }
    text
}

/// The best of the runs over the whole list of turns, the checks of both images
/// included.
fn nanoseconds(program: &[u8], instances: u32, turns: &[u8]) -> f64 {
    let records: Vec<Record> =
        (1..instances).map(|label| Record { of: 0, values: vec![1, label - 1] }).collect();
    let table = image(&table_stream(&records));
    let mut output = vec![OUTPUT_FILL; 8_704];
    let mut list = vec![None; 1_024];
    let mut best = f64::INFINITY;
    for _ in 0..RUNS {
        let start = Instant::now();
        let commands = run(program, &table, turns, &mut output, &mut list).turns;
        best = best.min(start.elapsed().as_secs_f64() * 1e9 / commands as f64);
    }
    best
}
