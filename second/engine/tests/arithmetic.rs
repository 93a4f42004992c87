//! Operator results and number 35 (01, "Table and turns" and "Numbers from
//! the state"; 02, "Retarders below zero").
mod common;
use common::*;

const MIN: i64 = i32::MIN as i64;
const MAX: i64 = i32::MAX as i64;
const TOP: i64 = u32::MAX as i64;

/// "if go then c := a op b" over a record (a, b, c, go); the null instance
/// has go false, so only the record works.
#[track_caller]
fn case(of: u8, byte: u8, a: i64, b: i64, expected: Option<i64>) {
    let result = if (38..=42).contains(&byte) { of } else { 2 };
    let work = update(&[2], &op(byte, &var(&[0]), &var(&[1])));
    let only = when(&var(&[3]), &[&work]);
    let stream = program(&[&[of, of, result, 2]], &[&[&step(0, &[&only])]], &[1, 1, 0]);
    let before = table(&[(0, &[a, b, 0, 1])]);
    // The null instance takes 3; the record 3, then 5 before the operator.
    let holding = match expected {
        Some(c) => runs(&stream, &before, &[0; 99], 0, 13, &table(&[(0, &[a, b, c, 1])])),
        None => runs(&stream, &before, &[0; 99], 35, 10, &before),
    };
    assert_eq!(holding, usize::from(expected.is_none()));
}

#[test]
fn int_results() {
    case(0, 38, -3, 7, Some(-21));
    case(0, 38, MIN, 1, Some(MIN));
    case(0, 38, 46_341, 46_341, None);
    case(0, 38, MIN, -1, None);
    case(0, 38, 65_536, 65_536, None);
    case(0, 41, MAX, 0, Some(MAX));
    case(0, 41, MAX, 1, None);
    case(0, 41, MIN, -1, None);
    case(0, 42, MIN, 0, Some(MIN));
    case(0, 42, MIN, 1, None);
    case(0, 42, 0, MIN, None);
    case(0, 42, -1, MIN, Some(MAX));
    case(0, 42, 3, 5, Some(-2));
}

#[test]
fn int_division() {
    for (a, b, quotient, rest) in [
        (7, 2, 3, 1),
        (-7, 2, -4, 1),
        (7, -2, -4, -1),
        (-7, -2, 3, -1),
        (-8, 2, -4, 0),
        (8, -2, -4, 0),
        (MIN, 2, MIN / 2, 0),
        (MIN, MAX, -2, MAX - 1),
        (MAX, MIN, -1, -1),
        (-1, MAX, -1, MAX - 1),
        (1, MIN, -1, MIN + 1),
        (MIN, MIN, 1, 0),
        (0, 9, 0, 0),
        (0, -9, 0, 0),
    ] {
        case(0, 39, a, b, Some(quotient));
        case(0, 40, a, b, Some(rest));
    }
    case(0, 39, 5, 0, None);
    case(0, 40, 5, 0, None);
    case(0, 40, 0, 0, None);
    case(0, 39, MIN, -1, None);
    case(0, 40, MIN, -1, Some(0));
}

/// 02's words at the corners: a is b × quotient and remainder, and the
/// remainder is 0 or has the divisor's sign and is smaller in amount.
#[test]
fn int_division_in_the_papers_words() {
    let corners = [MIN, MIN + 1, -7, -2, -1, 0, 1, 2, 7, MAX - 1, MAX];
    let apply = |byte, a: i64, b: i64| {
        operator(byte).apply(true, a as u32, b as u32).map(|word| i64::from(word.cast_signed()))
    };
    for a in corners {
        assert_eq!((apply(39, a, 0), apply(40, a, 0)), (None, None));
        for b in corners.into_iter().filter(|&b| b != 0) {
            let rest = apply(40, a, b).unwrap();
            assert!(rest == 0 || (rest < 0) == (b < 0), "{a} % {b} is {rest}");
            assert!(rest.abs() < b.abs(), "{a} % {b} is {rest}");
            match apply(39, a, b) {
                Some(quotient) => assert_eq!(b * quotient + rest, a, "{a} / {b} is {quotient}"),
                None => assert_eq!((a, b), (MIN, -1)),
            }
        }
    }
}

#[test]
fn nat_results() {
    case(1, 38, 65_535, 65_537, Some(TOP));
    case(1, 38, 65_536, 65_536, None);
    case(1, 41, TOP, 0, Some(TOP));
    case(1, 41, TOP, 1, None);
    case(1, 41, MAX, 1, Some(MAX + 1));
    case(1, 42, 5, 5, Some(0));
    case(1, 42, 5, 6, None);
    case(1, 42, TOP, MAX, Some(MAX + 1));
    case(1, 39, TOP, 2, Some(MAX));
    case(1, 39, TOP, TOP, Some(1));
    case(1, 40, TOP, 16, Some(15));
    case(1, 39, 1, 0, None);
    case(1, 40, 1, 0, None);
}

#[test]
fn order_and_equality() {
    for (byte, less, same, more) in
        [(32, 0, 1, 0), (33, 1, 0, 1), (34, 1, 1, 0), (35, 0, 1, 1), (36, 1, 0, 0), (37, 0, 0, 1)]
    {
        // As Int -1 is below 1; as Nat the same bits are above it.
        case(0, byte, -1, 1, Some(less));
        case(0, byte, MIN, MIN, Some(same));
        case(0, byte, 1, MIN, Some(more));
        case(1, byte, TOP, 1, Some(more));
        case(1, byte, TOP, TOP, Some(same));
        case(1, byte, 1, TOP, Some(less));
    }
    for (a, b) in [(0, 0), (0, 1), (1, 0), (1, 1)] {
        case(2, 32, a, b, Some(i64::from(a == b)));
        case(2, 33, a, b, Some(i64::from(a != b)));
        case(2, 43, a, b, Some(a & b));
        case(2, 44, a, b, Some(a | b));
    }
}

#[test]
fn references_are_compared_by_label() {
    for (byte, a, b, expected) in [(32, 0, 0, 1), (32, 0, 1, 0), (33, 1, 0, 1), (33, 1, 1, 0)] {
        case(16, byte, a, b, Some(expected));
    }
}
