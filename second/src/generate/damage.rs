//! Damage: to single bytes, to streams whose blocks are made right again, to
//! the parts of a program, and to the blocks themselves.

use super::encode::{BLOCK_BYTES, image, seal};
use super::expressions::any_type;
use super::random::Random;
use super::syntax::{Expression, Program, Statement, Step, Type};

/// Bytes that mean something somewhere.
const TELLING: [u8; 20] = [0, 1, 2, 3, 4, 5, 7, 8, 15, 16, 17, 18, 21, 22, 23, 31, 32, 33, 44, 45];

/// Changes one byte of an image and nothing else.
pub fn byte(random: &mut Random, image: &mut [u8]) {
    let at = random.below(image.len());
    image[at] ^= 1 << random.below(8);
}

/// Damages a stream, now and then twice, and makes the image of it.
pub fn stream(random: &mut Random, stream: &[u8]) -> Vec<u8> {
    let mut damaged = stream.to_vec();
    for _ in 0..if random.chance(20) { 2 } else { 1 } {
        let at = random.below(damaged.len());
        match random.below(12) {
            0 => damaged[at] = random.byte(),
            1..=3 => damaged[at] = *random.pick(&TELLING),
            4..=5 => damaged[at] = damaged[at].wrapping_add(1),
            6 => damaged[at] = damaged[at].wrapping_sub(1),
            7 => damaged.insert(at, *random.pick(&TELLING)),
            8 if damaged.len() > 1 => drop(damaged.remove(at)),
            9 if at > 0 => damaged.truncate(at),
            10 => damaged.push(random.byte()),
            _ => {
                let other = random.below(damaged.len());
                damaged.swap(at, other);
            }
        }
    }
    image(&damaged)
}

/// Damages the parts of a program, keeping the form of its stream.
pub fn structure(random: &mut Random, program: &mut Program) {
    let structs = program.structs.len();
    let definition = &mut program.structs[random.below(structs)];
    if definition.steps.is_empty() || random.chance(15) {
        let of = any_type(random, structs);
        match definition.parameters.len() {
            0 => definition.steps.push(Step { name: random.below(32) as u8, body: Vec::new() }),
            count => definition.parameters[random.below(count)] = of,
        }
        return;
    }
    let count = definition.steps.len();
    let at = random.below(count);
    match random.below(8) {
        0 => definition.steps[at].name = random.below(32) as u8,
        1 if count < 8 => definition.steps.push(definition.steps[at].clone()),
        2 => drop(definition.steps.remove(at)),
        _ => body(random, &mut definition.steps[at].body, structs),
    }
}

fn body(random: &mut Random, statements: &mut Vec<Statement>, structs: usize) {
    if statements.is_empty() {
        return;
    }
    let count = statements.len();
    let at = random.below(count);
    match random.below(6) {
        0 if count < 32 => statements.push(statements[at].clone()),
        1 => drop(statements.remove(at)),
        2 => statements.swap(at, random.below(count)),
        _ => statement(random, &mut statements[at], structs),
    }
}

fn statement(random: &mut Random, given: &mut Statement, structs: usize) {
    match given {
        Statement::If { body: inside, .. } if random.chance(70) => body(random, inside, structs),
        Statement::If { condition, .. } => {
            *condition = Expression::Null(any_type(random, structs));
        }
        Statement::Declare { of, .. } if random.chance(50) => {
            *of = *random.pick(&[Type::Int, Type::Nat, Type::Bool]);
        }
        Statement::Declare { local, .. } => *local = random.from_to(8, 15) as u8,
        Statement::Update { path, .. } => {
            let at = random.below(path.0.len());
            path.0[at] = random.below(8) as u8;
        }
        Statement::Construct { of, .. } => *of = random.below(structs) as u8,
    }
}

/// Damages one or two blocks; the sums are mostly made right again.
pub fn blocks(random: &mut Random, image: &mut Vec<u8>) {
    for _ in 0..random.from_to(1, 2) {
        let count = image.len() / BLOCK_BYTES;
        let block = BLOCK_BYTES * random.below(count.max(1));
        if count == 0 {
            return;
        }
        match random.below(8) {
            0 => image[block] = image[block].wrapping_add(1),
            1 => image[block + 1] = random.byte(),
            2 => image[block + 2] = image[block + 2].wrapping_add(1),
            3 => image[block + 3] = random.below(4) as u8,
            4 => image[block + 507] = 1,
            5 => image[block + 508 + random.below(4)] ^= 1,
            6 => image.truncate(block + random.below(BLOCK_BYTES)),
            _ => image.extend_from_within(block..block + BLOCK_BYTES),
        }
        let whole = image.get_mut(block..block + BLOCK_BYTES);
        if random.chance(80)
            && let Some(whole) = whole
        {
            seal(whole);
        }
    }
}
