//! Bare binary expressions (02 §2).

mod common;
use common::{expression, number, number_bare, stream, stream_bare, with};

fn assigned(text: &str) -> String {
    with(&format!("x := {text};"))
}

fn bare(text: &str) -> Vec<u8> {
    expression(&stream_bare(&assigned(text))).to_vec()
}

fn bracketed(text: &str) -> Vec<u8> {
    expression(&stream(&assigned(text))).to_vec()
}

const BY_LEVEL: [&[&str]; 5] =
    [&["||"], &["&&"], &["=", "!=", "<=", ">=", "<", ">"], &["+", "-"], &["*", "/", "%"]];

#[test]
fn levels() {
    for (low, weak) in BY_LEVEL.iter().enumerate() {
        for strong in &BY_LEVEL[low + 1..] {
            for (w, s) in weak.iter().flat_map(|w| strong.iter().map(move |s| (w, s))) {
                assert_eq!(
                    bare(&format!("x {w} y {s} b")),
                    bracketed(&format!("(x {w} (y {s} b))"))
                );
                assert_eq!(
                    bare(&format!("x {s} y {w} b")),
                    bracketed(&format!("((x {s} y) {w} b)"))
                );
            }
        }
    }
}

#[test]
fn from_left_to_right() {
    for level in [0, 1, 3, 4] {
        for (a, b) in
            BY_LEVEL[level].iter().flat_map(|a| BY_LEVEL[level].iter().map(move |b| (a, b)))
        {
            assert_eq!(bare(&format!("x {a} y {b} b")), bracketed(&format!("((x {a} y) {b} b)")));
            assert_eq!(bare(&format!("x {a} (y {b} b)")), bracketed(&format!("(x {a} (y {b} b))")));
        }
    }
    assert_eq!(bare("x - y - b - x"), bracketed("(((x - y) - b) - x)"));
}

#[test]
fn not_binds_tightest() {
    for operator in BY_LEVEL.concat() {
        assert_eq!(bare(&format!("!x {operator} !!y")), bracketed(&format!("(!x {operator} !!y)")));
        assert_eq!(bare(&format!("!(x {operator} y)")), bracketed(&format!("!(x {operator} y)")));
    }
}

#[test]
fn two_comparisons_in_a_row() {
    for (a, b) in BY_LEVEL[2].iter().flat_map(|a| BY_LEVEL[2].iter().map(move |b| (a, b))) {
        for text in [
            format!("x {a} y {b} x"),
            format!("x {a} y + x {b} x"),
            format!("x {a} y * x {b} x"),
            format!("x {a} !y {b} x"),
            format!("b && x {a} y {b} x || b"),
            format!("(x {a} y {b} x)"),
            format!("P(b, x {a} y {b} x, y, p)"),
        ] {
            assert_eq!(number_bare(&assigned(&text)), 16, "{text}");
        }
        for text in [
            format!("(x {a} y) {b} x"),
            format!("x {a} (y {b} x)"),
            format!("x {a} y && y {b} x"),
            format!("x {a} y || y {b} x"),
            format!("P(x {a} y, x {b} y, y, p)"),
            format!("x + (x {a} y) {b} y"),
        ] {
            assert_eq!(number_bare(&assigned(&text)), 0, "{text}");
        }
    }
}

#[test]
fn longer_sums() {
    assert_eq!(
        bare("b || x + y * b < x - y && !b || b = b"),
        bracketed("((b || (((x + (y * b)) < (x - y)) && !b)) || (b = b))")
    );
    assert_eq!(
        bare("x * y + b * x - y % b / x"),
        bracketed("(((x * y) + (b * x)) - ((y % b) / x))")
    );
    assert_eq!(bare("P(x + y, y && b, b, p) = p"), bracketed("(P((x + y), (y && b), b, p) = p)"));
    assert_eq!(number_bare(&with("if x = x && b then { P(x + x, x, x, p); }")), 0);
}

#[test]
fn the_rest_stays() {
    for text in ["x +", "+ x", "x + + x", "x ! x", "x == x", "(x + x", "x + x)", "x -1", "x, x"] {
        assert_eq!(number_bare(&assigned(text)), 16, "{text}");
    }
    assert_eq!(number_bare(&assigned("x - 1")), 15);
    assert_eq!(number_bare(&assigned("x + z")), 17);
    assert_eq!(bare("x --1"), bracketed("(x - -1)"));
    for text in ["((x + y) * (b))", "!(b && (x < y))", "P((x+y),x,y,p)", "(x)"] {
        assert_eq!(bare(text), bracketed(text), "fully bracketed text keeps its stream");
    }
    assert_eq!((number(&assigned("x + x")), number_bare(&assigned("x + x"))), (16, 0));
}
