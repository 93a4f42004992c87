//! 13, after 15 to 17: "an output shorter than their largest image" (02 §1);
//! and what of the output is written.

mod common;
use text::{Answer, read, read_bare};

/// The answer for an output of this length, which is checked.
fn answer(text: &str, length: usize) -> Answer {
    let mut output = vec![7; length];
    let answer = read(text.as_bytes(), &mut output);
    let mut bare = vec![7; length];
    assert_eq!(read_bare(text.as_bytes(), &mut bare), answer);
    assert_eq!(output, bare);
    assert!(output[512 * answer.blocks..].iter().all(|&byte| byte == 7));
    answer
}

const P: &str = "struct P(){s{}}s";

#[test]
fn room() {
    let written = Answer { number: 0, blocks: 1 };
    let refused = Answer { number: 13, blocks: 0 };
    assert_eq!(answer(P, 32_768), written);
    assert_eq!(answer(P, 32_769), written);
    assert_eq!(answer(P, 100_000), written);
    for length in [0, 1, 511, 512, 32_256, 32_767] {
        assert_eq!(answer(P, length), refused, "{length}");
    }
}

#[test]
fn fifteen_to_seventeen_come_first() {
    for (text, number) in [("1", 15), ("s", 16), ("struct P(){s{}}t", 17), (P, 13)] {
        for length in [0, 512, 32_767] {
            assert_eq!(answer(text, length), Answer { number, blocks: 0 });
        }
    }
}

/// Streams of as many bytes as one block holds, and one more.
#[test]
fn blocks() {
    let nots = |count| common::with(&format!("b := {}b;", "!".repeat(count)));
    let rest = common::stream(&nots(0)).len();
    for (bytes, blocks) in [(503, 1), (504, 1), (505, 2), (1008, 2), (1009, 3), (32_256, 64)] {
        let text = nots(bytes - rest);
        assert_eq!(answer(&text, 32_768), Answer { number: 0, blocks });
        assert_eq!(common::stream(&text).len(), bytes);
    }
}
