//! Random tables and turn lists.

use super::encode::Record;
use super::expressions::number;
use super::random::Random;
use super::syntax::Type;

/// Records for the given structs, all values allowed. References go mostly to
/// lower labels, so that following them comes to an end.
pub fn random_records(random: &mut Random, structs: &[Vec<Type>], count: usize) -> Vec<Record> {
    let kinds: Vec<u8> = (0..count).map(|_| random.below(structs.len()) as u8).collect();
    let mut records = Vec::with_capacity(count);
    for (index, &of) in kinds.iter().enumerate() {
        let parameters = structs[usize::from(of)].iter();
        let values =
            parameters.map(|of| value(random, *of, &kinds, index, structs.len())).collect();
        records.push(Record { of, values });
    }
    records
}

fn value(random: &mut Random, of: Type, kinds: &[u8], index: usize, structs: usize) -> u32 {
    match of {
        Type::Int | Type::Nat => number(random, of),
        Type::Bool => random.below(2) as u32,
        Type::Struct(wanted) => {
            let reach = if random.chance(90) { index } else { kinds.len() };
            let fitting: Vec<usize> = (0..reach).filter(|&i| kinds[i] == wanted).collect();
            if fitting.is_empty() || random.chance(25) {
                u32::from(wanted)
            } else {
                (structs + random.pick(&fitting)) as u32
            }
        }
    }
}

/// How many records: mostly few, now and then as many as there may be.
pub fn record_count(random: &mut Random, structs: usize) -> usize {
    match random.below(20) {
        0 => 256 - structs,
        1 => 256 - structs - random.below(6),
        2..=3 => random.below(100),
        _ => random.below(10),
    }
}

pub fn turn_bytes(random: &mut Random, count: usize) -> Vec<u8> {
    let fixed = random.byte();
    match random.below(6) {
        0 => vec![0; count],
        1 => vec![fixed; count],
        2 => (0..count).map(|at| (at & 255) as u8).collect(),
        3 => (0..count).map(|_| if random.chance(80) { 0 } else { random.byte() }).collect(),
        _ => (0..count).map(|_| random.byte()).collect(),
    }
}
