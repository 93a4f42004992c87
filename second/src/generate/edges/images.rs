//! Lengths and blocks: numbers 1 to 3, 9 and 10, with what is lent (13) and
//! the turn count (14).

use super::super::encode::{image, seal};
use super::{ONE, P, check, check_image, run_images};
use crate::cases::Case;

pub fn cases() -> Vec<Case> {
    [lengths(), faults(), table_faults(), lent(), used_counts()].concat()
}

fn lengths() -> Vec<Case> {
    let mut cases = Vec::new();
    for length in [0, 1, 511, 512, 513, 1_023] {
        let program = [image(&P), vec![0; 512]].concat()[..length].to_vec();
        cases.push(check_image(program));
        let table = [image(&ONE), vec![0; 512]].concat()[..length].to_vec();
        cases.push(run_images(image(&P), table, &[0; 16]));
    }
    // As long as an image may be, and longer: the stream itself is refused.
    let mut long = P.to_vec();
    long.resize(64 * 504, 0);
    cases.push(check(&long));
    long.push(0);
    cases.push(check(&long));
    let mut table = ONE.to_vec();
    for length in [17 * 504, 17 * 504 + 1, 19 * 504] {
        table.resize(length, 0);
        cases.push(run_images(image(&P), image(&table), &[0; 16]));
    }
    cases
}

/// An image of three blocks changed at some bytes, those blocks sealed again
/// that are asked for.
fn changed(changes: &[(usize, u8)], sealed: &[usize]) -> Vec<u8> {
    let mut program = image(&[0; 2 * 504 + 7]);
    for &(at, byte) in changes {
        program[at] ^= byte;
    }
    for &block in sealed {
        seal(&mut program[512 * block..512 * (block + 1)]);
    }
    program
}

fn faults() -> Vec<Case> {
    let (first, second, third) = (0, 512, 1_024);
    let images = [
        changed(&[], &[]),
        changed(&[(first + 508, 1)], &[]),
        changed(&[(first + 509, 128)], &[]),
        changed(&[(first + 510, 1)], &[]),
        changed(&[(third + 511, 128)], &[]),
        changed(&[(first, 1)], &[0]),
        changed(&[(first + 1, 1)], &[0]),
        changed(&[(second, 1)], &[1]),
        changed(&[(third, 1)], &[2]),
        changed(&[(first + 2, 1)], &[0]),
        changed(&[(second + 3, 1)], &[1]),
        changed(&[(third + 2, 7)], &[2]),
        changed(&[(third + 3, 1)], &[2]),
        changed(&[(third + 3, 255)], &[2]),
        changed(&[(third + 4 + 7, 1)], &[2]),
        changed(&[(third + 507, 1)], &[2]),
        changed(&[(third + 4 + 6, 1)], &[2]),
        changed(&[(first, 1), (first + 508, 1)], &[]),
        changed(&[(first, 1), (second + 508, 1)], &[0]),
        changed(&[(first + 508, 1), (second, 1)], &[1]),
        changed(&[(second, 1), (third + 510, 1)], &[1]),
        changed(&[(first, 5), (second, 5)], &[0, 1]),
    ];
    images.into_iter().map(check_image).collect()
}

/// One block and its used count, from 0 to past 504.
fn used_counts() -> Vec<Case> {
    let mut cases = Vec::new();
    for used in [0u16, 1, 20, 21, 22, 503, 504, 505, 65_535] {
        let mut program = image(&P);
        program[2..4].copy_from_slice(&used.to_le_bytes());
        seal(&mut program);
        cases.push(check_image(program));
        let mut table = image(&ONE);
        table[2..4].copy_from_slice(&used.to_le_bytes());
        seal(&mut table);
        cases.push(run_images(image(&P), table, &[0; 16]));
    }
    cases
}

fn table_faults() -> Vec<Case> {
    let mut cases = Vec::new();
    for (at, byte, sealed) in [
        (0, 1, true),
        (2, 8, true),
        (507, 1, true),
        (508, 1, false),
        (511, 1, false),
        (15, 1, true),
    ] {
        let mut table = image(&ONE);
        table[at] ^= byte;
        if sealed {
            seal(&mut table);
        }
        cases.push(run_images(image(&P), table, &[0; 16]));
    }
    cases
}

/// Lists, outputs and turn counts at their edges, alone and together.
fn lent() -> Vec<Case> {
    let lend = |places, output, turns: usize, table: &[u8]| Case::Run {
        places,
        output,
        program: image(&P),
        table: image(table),
        turns: vec![0; turns],
    };
    let mut cases = vec![
        lend(1_023, 8_704, 16, &ONE),
        lend(1_025, 8_704, 16, &ONE),
        lend(0, 8_704, 16, &ONE),
        lend(1_024, 8_703, 16, &ONE),
        lend(1_024, 8_705, 16, &ONE),
        lend(1_024, 0, 16, &ONE),
        lend(1_100, 9_216, 16, &ONE),
        lend(1_024, 8_704, 65_537, &ONE),
        lend(1_023, 8_704, 65_537, &ONE),
        lend(1_024, 8_703, 16, &[1]),
        lend(1_023, 8_703, 16, &[1, 0, 1]),
    ];
    for places in [0, 1, 8, 1_023, 1_025, 1_100] {
        cases.push(Case::Check { places, program: image(&P) });
        cases.push(Case::Check { places, program: image(&[1, 0, 1, 0, 0, 1, 1, 1]) });
    }
    cases
}
