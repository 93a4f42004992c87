//! Every limit of 01 at its edge and one past it, and the order of the
//! numbers, as cases that no seed changes.

mod images;
mod names;
mod programs;
mod states;
mod tables;

use super::encode::image;
use crate::cases::Case;

/// 01's P.
pub const P: [u8; 21] = [1, 2, 0, 16, 1, 0, 1, 3, 1, 0, 41, 18, 1, 0, 18, 2, 1, 0, 1, 1, 0];

/// A table for P with the one record (5, 0).
pub const ONE: [u8; 11] = [1, 0, 0, 5, 0, 0, 0, 0, 0, 0, 0];

pub fn edges() -> Vec<Case> {
    [images::cases(), programs::cases(), names::cases(), tables::cases(), states::cases()].concat()
}

fn check(stream: &[u8]) -> Case {
    check_image(image(stream))
}

fn check_image(program: Vec<u8>) -> Case {
    Case::Check { places: 1_024, program }
}

fn run(program: &[u8], table: &[u8], turns: &[u8]) -> Case {
    run_images(image(program), image(table), turns)
}

fn run_images(program: Vec<u8>, table: Vec<u8>, turns: &[u8]) -> Case {
    Case::Run { places: 1_024, output: 8_704, program, table, turns: turns.to_vec() }
}
