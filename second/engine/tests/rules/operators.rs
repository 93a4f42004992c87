//! Operators on whole numbers, the result's range looked at afterwards.
use super::Value;

pub fn operate(byte: u8, a: Value, b: Value) -> Option<Value> {
    match (byte, a, b) {
        (32, a, b) => Some(Value::Bool(a == b)),
        (33, a, b) => Some(Value::Bool(a != b)),
        (43, Value::Bool(a), Value::Bool(b)) => Some(Value::Bool(a && b)),
        (44, Value::Bool(a), Value::Bool(b)) => Some(Value::Bool(a || b)),
        (34..=37, Value::Int(a), Value::Int(b)) => Some(Value::Bool(order(byte, a, b))),
        (34..=37, Value::Nat(a), Value::Nat(b)) => Some(Value::Bool(order(byte, a, b))),
        (_, Value::Int(a), Value::Int(b)) => {
            let result = arithmetic(byte, a, b)?;
            (-2_147_483_648..=2_147_483_647).contains(&result).then_some(Value::Int(result as i64))
        }
        (_, Value::Nat(a), Value::Nat(b)) => {
            let result = arithmetic(byte, a, b)?;
            (0..=4_294_967_295).contains(&result).then_some(Value::Nat(result as i64))
        }
        _ => panic!("operands of other types"),
    }
}

fn order(byte: u8, a: i64, b: i64) -> bool {
    [a <= b, a >= b, a < b, a > b][usize::from(byte - 34)]
}

fn arithmetic(byte: u8, a: i64, b: i64) -> Option<i128> {
    let (a, b) = (i128::from(a), i128::from(b));
    match byte {
        38 => Some(a * b),
        39 | 40 if b == 0 => None,
        39 => Some(floor(a, b)),
        40 => Some(a - b * floor(a, b)),
        41 => Some(a + b),
        _ => Some(a - b),
    }
}

/// The greatest whole number not above a / b; a divisor below zero turns
/// both round.
fn floor(a: i128, b: i128) -> i128 {
    if b < 0 { (-a).div_euclid(-b) } else { a.div_euclid(b) }
}
