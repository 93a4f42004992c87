//! Program streams at their limits: numbers 4 to 6.

use super::{P, check};
use crate::cases::Case;

pub fn cases() -> Vec<Case> {
    let streams =
        [single_bytes(), counts(), nesting(), deep_expressions(), totals(), lengths()].concat();
    streams.iter().map(|stream| check(stream)).collect()
}

/// A step 0 with the given statements in a program of two structs: struct 0
/// (Bool, Int, struct 0), struct 1 without parameters.
fn with_body(count: usize, statements: &[u8]) -> Vec<u8> {
    let head = [2, 3, 2, 0, 16, 0, 1, 0, count as u8];
    [&head, statements, &[0, 1, 1, 0]].concat()
}

/// Parameter 0 updated to the given expression.
fn with_truth(expression: &[u8]) -> Vec<u8> {
    with_body(1, &[&[3, 1, 0], expression].concat())
}

/// P with each byte of it put to values round what is allowed there.
fn single_bytes() -> Vec<Vec<u8>> {
    let mut streams = Vec::new();
    for length in 1..P.len() {
        streams.push(P[..length].to_vec());
    }
    for tail in [&[0][..], &[1, 1], &[9; 500]] {
        streams.push([&P, tail].concat());
    }
    for at in 0..P.len() {
        for byte in [0, 1, 2, 3, 5, 8, 15, 16, 17, 23, 24, 31, 32, 44, 45, 255] {
            let mut stream = P.to_vec();
            if stream[at] != byte && (at + usize::from(byte)) % 3 == 0 {
                stream[at] = byte;
                streams.push(stream);
            }
        }
    }
    for byte in [14, 15, 16, 22, 23, 24, 31, 32, 44, 45] {
        streams.push(with_truth(&[byte, 21, 1, 21, 0]));
    }
    for byte in [0, 1, 2, 255] {
        streams.push(with_truth(&[21, byte]));
        streams.push(with_body(1, &[4, byte]));
        streams.push(with_truth(&[32, 17, byte, 22, 17]));
        streams.push(vec![2, 0, 0, 1, 0, 0, 1, 0, 0, 1, 2, byte, 0]);
    }
    for of in [1, 2, 3, 15, 16, 17, 18, 255] {
        streams.push(with_truth(&[22, of]));
        streams.push(with_body(1, &[2, of, 8, 22, of]));
    }
    streams
}

fn counts() -> Vec<Vec<u8>> {
    let mut streams = Vec::new();
    for structs in [1, 15, 16, 17] {
        let mut stream = vec![structs as u8];
        stream.extend(vec![0; 2 * structs]);
        stream.splice(structs + 1..structs + 2, [1, 31, 0]);
        stream.extend([1, 1, 31]);
        streams.push(stream);
    }
    for parameters in [7, 8, 9] {
        let types = vec![2; parameters];
        streams.push([&[1, parameters as u8][..], &types, &[1, 0, 0, 1, 1, 0]].concat());
    }
    for of in [0, 1, 2, 3, 15, 16, 17, 18, 255] {
        streams.push(vec![2, 1, of, 0, 1, 0, 0, 0, 1, 1, 0]);
    }
    for steps in [0u8, 7, 8, 9] {
        let each: Vec<u8> = (0..steps).flat_map(|name| [name, 0]).collect();
        streams.push([&[1, 0, steps][..], &each, &[1, 1, 0]].concat());
    }
    for statements in [0, 1, 31, 32, 33] {
        let empty_ifs = [1, 21, 0, 0].repeat(statements);
        streams.push(with_body(statements, &empty_ifs));
        let constructs = statements.min(10);
        let mut inside = vec![1, 21, 0, statements as u8];
        inside.extend([4, 1].repeat(constructs));
        inside.extend([1, 21, 0, 0].repeat(statements - constructs));
        streams.push(with_body(1, &inside));
    }
    for items in [0, 1, 31, 32, 33] {
        let listed = [1, 0].repeat(items);
        streams.push([&[1, 0, 1, 0, 0, items as u8][..], &listed].concat());
        streams.push([&[1, 0, 1, 0, 0, 1, 3, items as u8][..], &listed].concat());
    }
    streams
}

/// Fixes and ifs, one inside the other.
fn nesting() -> Vec<Vec<u8>> {
    let mut streams = Vec::new();
    for fixes in [7, 8, 9] {
        let nested = [3, 1].repeat(fixes);
        streams.push([&[1, 0, 1, 0, 0, 1][..], &nested, &[1, 0]].concat());
        streams.push([&[1, 0, 1, 0, 0, 1][..], &nested].concat());
    }
    for ifs in [7, 8, 9] {
        let nested = [1, 21, 0, 1].repeat(ifs);
        streams.push(with_body(1, &[&nested[..], &[4, 1]].concat()));
        streams.push([&[1, 0, 1, 0, 1][..], &nested].concat());
    }
    streams
}

/// Expressions, one inside the other: nots, operators and constructs.
fn deep_expressions() -> Vec<Vec<u8>> {
    let mut streams = Vec::new();
    for levels in [14, 15, 16, 17] {
        let nots = vec![16; levels];
        streams.push(with_truth(&[&nots[..], &[21, 1]].concat()));
        streams.push(with_truth(&[&nots[..], &[18, 1, 0]].concat()));
        streams.push([&[1, 1, 2, 1, 0, 1, 3, 1, 0][..], &nots].concat());
        for tail in [0, 16, 19, 23, 44, 255] {
            streams.push([&[1, 1, 2, 1, 0, 1, 3, 1, 0][..], &nots, &[tail]].concat());
        }
        let to_the_left = [vec![44; levels], [21, 1].repeat(levels + 1)].concat();
        streams.push(with_truth(&to_the_left));
        let to_the_right = [[43, 21, 1].repeat(levels), vec![18, 1, 0]].concat();
        streams.push(with_truth(&to_the_right));
        let condition = [&[1][..], &nots, &[21, 0, 0]].concat();
        streams.push(with_body(1, &condition));
    }
    for levels in [14, 15, 16] {
        // struct 0 refers to itself: construct round construct
        for first in [4, 17] {
            let inner = [17, 0].repeat(levels);
            let mut stream = vec![1, 1, 16, 1, 0, 1];
            stream.extend(if first == 4 { vec![4, 0] } else { vec![3, 1, 0, 17, 0] });
            stream.extend(inner);
            stream.extend([23, 1, 1, 0]);
            streams.push(stream);
        }
    }
    streams
}

/// Struct 0 (Bool) and struct 1 without parameters, of up to eight steps each
/// with so many commands: a construct of one if odd, the rest empty ifs of two.
fn many_commands(steps: &[usize]) -> Vec<u8> {
    let mut stream = vec![2, 1, 2, 0, steps.len().min(8) as u8];
    for (at, &commands) in steps.iter().enumerate() {
        if at == 8 {
            stream.push((steps.len() - 8) as u8);
        }
        // n constructs, the rest empty ifs of two commands each
        let constructs = commands % 2;
        let ifs = (commands - constructs) / 2;
        stream.extend([at as u8, (constructs + ifs.div_ceil(2)) as u8]);
        stream.extend([4, 1].repeat(constructs));
        stream.extend([1, 21, 0, 1, 1, 21, 0, 0].repeat(ifs / 2));
        stream.extend([1, 21, 0, 0].repeat(ifs % 2));
    }
    if steps.len() <= 8 {
        stream.push(0);
    }
    stream.extend([1, 1, 0]);
    stream
}

fn totals() -> Vec<Vec<u8>> {
    let mut streams = Vec::new();
    for commands in [63, 64, 65, 66] {
        streams.push(many_commands(&[commands]));
        streams.push(many_commands(&[1, commands]));
    }
    for last in [62, 63, 64, 65] {
        streams.push(many_commands(&[&[64; 15][..], &[last]].concat()));
    }
    streams.push(seventeen_steps(1));
    streams.push(seventeen_steps(0));
    for (first, second) in [(30, 31), (31, 31), (31, 32), (32, 32)] {
        let mut stream = vec![1, 0, 1, 0, 0, 2];
        for count in [first, second] {
            stream.extend([3, count as u8]);
            stream.extend([1, 0].repeat(count));
        }
        streams.push(stream);
    }
    for constructs in [13, 14, 15] {
        let labels = [4, 1].repeat(constructs);
        let update = [3, 1, 1, 19, 7, 0, 0, 0];
        streams.push(with_body(constructs + 1, &[&labels[..], &update].concat()));
        // the same labels left inside an if
        let inside = [&[1, 21, 0, constructs as u8][..], &labels, &update].concat();
        streams.push(with_body(2, &inside));
    }
    for labels in [15, 16, 17] {
        streams.push(with_body(labels, &[4, 1].repeat(labels)));
    }
    streams
}

/// Sixteen steps of 64 commands in three structs and one of so many more.
fn seventeen_steps(more: usize) -> Vec<u8> {
    let mut stream = vec![3, 0, 0, 0];
    for name in 0..16 {
        if name % 8 == 0 {
            stream.push(8);
        }
        stream.extend([name, 16]);
        stream.extend([1, 21, 0, 1, 1, 21, 0, 0].repeat(16));
    }
    stream.extend([1, 31, more as u8]);
    stream.extend([4, 2].repeat(more));
    stream.extend([1, 1, 0]);
    stream
}

/// Streams that end on the last byte of a block, before it and behind it.
fn lengths() -> Vec<Vec<u8>> {
    [503, 504, 505, 1_007, 1_008, 1_009].map(of_length).to_vec()
}

/// An accepted stream of so many bytes: updates of eight bytes in steps of at
/// most twenty, and items of two and three bytes for what is left.
fn of_length(total: usize) -> Vec<u8> {
    let updates = vec![[3, 1, 0, 19, 1, 2, 3, 4]; (total - 60) / 8];
    let steps = updates.chunks(20);
    let mut stream = vec![1, 1, 0, steps.len() as u8];
    for (name, step) in (0..).zip(steps) {
        stream.extend([name, step.len() as u8]);
        stream.extend(step.concat());
    }
    let left = total - stream.len() - 1;
    let threes = left % 2;
    let twos = (left - 3 * threes) / 2;
    stream.push((twos + threes) as u8);
    stream.extend([1, 0].repeat(twos));
    stream.extend([2, 0, 0].repeat(threes));
    stream
}
