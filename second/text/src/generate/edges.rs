//! The texts that no seed changes: every text about a single rule, each count,
//! number and length at its edge and beside it, and nesting as deep as a text
//! holds.

use super::TEXT_BYTES;
use super::edge::{BARE, COUNTED, RAW, RULES, padded, row, stream_bytes};
use super::random::Random;
use std::collections::BTreeSet;

/// Enough draws for every choice that a text near an edge has.
const DRAWS: u64 = 400;

/// What all draws of a kind of text give, each once.
fn drawn(make: impl Fn(&mut Random) -> String) -> BTreeSet<String> {
    (0..DRAWS).map(|index| make(&mut Random::of_case(0, index))).collect()
}

/// As many parts as a text holds, each closed again; `inner` stands in them.
fn nested(front: &str, open: &str, inner: &str, close: &str, back: &str) -> String {
    let room = TEXT_BYTES - front.len() - inner.len() - back.len();
    let depth = room / (open.len() + close.len());
    [front, &open.repeat(depth), inner, &close.repeat(depth), back].concat()
}

/// Brackets, nots, sums, constructors, ifs and Fixes, closed and not.
fn deep() -> Vec<String> {
    let (front, back) = ("struct P(b:Bool,p:P){s{b:=", ";}}s");
    let steps = "struct P(b:Bool,p:P){s{";
    vec![
        nested(front, "(", "b", ")", back),
        nested(front, "!", "b", "", back),
        nested(front, "!(", "b", ")", back),
        nested(front, "(b+", "b", ")", back),
        nested("struct P(p:P){s{p:=", "P(", "p", ")", back),
        nested(steps, "if b then{", "", "}", "}}s"),
        nested("struct P(){s{}}", "Fix(", "s", ")", ""),
        nested(front, "(", "", "", ""),
        nested("struct P(){s{}}", "Fix(", "", "", ""),
        nested(steps, "if b then{", "", "", ""),
    ]
}

/// All of them, each to be read as it stands.
pub fn edges() -> Vec<Vec<u8>> {
    let mut texts: Vec<String> = RULES.iter().chain(&RAW).map(|text| text.to_string()).collect();
    texts.extend(COUNTED.iter().flat_map(drawn));
    texts.extend(drawn(stream_bytes));
    texts.extend(drawn(|random| padded(random, "struct P(){s{}}s".to_string())));
    texts.extend(deep());
    texts.extend(BARE.iter().map(|text| text.to_string()));
    texts.extend(drawn(row));
    texts.push(nested("struct P(b:Bool,p:P){s{b:=", "b+", "b", "", ";}}s"));
    texts.into_iter().map(String::into_bytes).collect()
}
