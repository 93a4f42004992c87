//! The operators 32 to 44: bytes, operand and result types, and results
//! (01, "Program stream", "Names, types, commands", "Table and turns"; Int
//! division after 02, section 4).

use crate::types::Type;

#[derive(Clone, Copy, PartialEq, Eq, Debug)]
#[repr(u8)]
pub enum Operator {
    Equal = 32,
    NotEqual = 33,
    AtMost = 34,
    AtLeast = 35,
    Less = 36,
    Greater = 37,
    Times = 38,
    Divide = 39,
    Remainder = 40,
    Plus = 41,
    Minus = 42,
    And = 43,
    Or = 44,
}

use Operator::*;

const ALL: [Operator; 13] = [
    Equal, NotEqual, AtMost, AtLeast, Less, Greater, Times, Divide, Remainder, Plus, Minus, And, Or,
];

impl Operator {
    pub fn from_byte(byte: u8) -> Option<Operator> {
        ALL.get(usize::from(byte.checked_sub(Equal as u8)?)).copied()
    }

    pub fn byte(self) -> u8 {
        self as u8
    }

    /// Whether two operands of this one type are allowed.
    pub fn allows(self, operands: Type) -> bool {
        match self {
            Equal | NotEqual => true,
            And | Or => operands == Type::Bool,
            _ => matches!(operands, Type::Int | Type::Nat),
        }
    }

    /// The result's type: the operands' own for arithmetic, else Bool.
    pub fn result(self, operands: Type) -> Type {
        match self {
            Times | Divide | Remainder | Plus | Minus => operands,
            _ => Type::Bool,
        }
    }

    /// The result over two values, `None` for a zero divisor or a result
    /// outside its type. `signed` tells that the operands are Int.
    pub fn apply(self, signed: bool, a: u32, b: u32) -> Option<u32> {
        match self {
            Equal => Some(u32::from(a == b)),
            NotEqual => Some(u32::from(a != b)),
            And => Some(a & b),
            Or => Some(a | b),
            _ if signed => self.over_int(a.cast_signed(), b.cast_signed()),
            _ => self.over_nat(a, b),
        }
    }

    fn over_int(self, a: i32, b: i32) -> Option<u32> {
        let result = match self {
            Times => a.checked_mul(b)?,
            Divide => i32::try_from(int_quotient(a, b)?).ok()?,
            Remainder => i32::try_from(int_remainder(a, b)?).ok()?,
            Plus => a.checked_add(b)?,
            Minus => a.checked_sub(b)?,
            _ => return Some(u32::from(self.holds(&a, &b))),
        };
        Some(result.cast_unsigned())
    }

    fn over_nat(self, a: u32, b: u32) -> Option<u32> {
        match self {
            Times => a.checked_mul(b),
            Divide => a.checked_div(b),
            Remainder => a.checked_rem(b),
            Plus => a.checked_add(b),
            Minus => a.checked_sub(b),
            _ => Some(u32::from(self.holds(&a, &b))),
        }
    }

    /// The order operators.
    fn holds<T: Ord>(self, a: &T, b: &T) -> bool {
        match self {
            AtMost => a <= b,
            AtLeast => a >= b,
            Less => a < b,
            _ => a > b,
        }
    }
}

/// The Int quotient, rounded toward minus infinity; `None` for a zero divisor.
/// In i64, as -2147483648 / -1 lies outside Int: the caller looks at the range.
fn int_quotient(a: i32, b: i32) -> Option<i64> {
    let (a, b) = (i64::from(a), i64::from(b));
    if b == 0 {
        return None;
    }
    let toward_zero = a / b;
    let exact = toward_zero * b == a;
    let signs_differ = (a < 0) != (b < 0);
    // Rounding toward zero went up only where the true quotient is below
    // zero and not whole.
    Some(if signs_differ && !exact { toward_zero - 1 } else { toward_zero })
}

/// The Int remainder, a - b * quotient: zero or of the divisor's sign, so
/// always inside Int; `None` for a zero divisor.
fn int_remainder(a: i32, b: i32) -> Option<i64> {
    let quotient = int_quotient(a, b)?;
    Some(i64::from(a) - i64::from(b) * quotient)
}
