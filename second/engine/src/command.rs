//! Commands (000, definition 1) and how a listing prints them (01, "Bench
//! rows").

use crate::operators::Operator;
use crate::types::Type;
use std::fmt;

#[derive(Clone, Copy, PartialEq, Eq, Debug)]
pub enum Command {
    /// `push T V`: the value is kept in 32 bits, an Int in two's complement,
    /// a Bool as 0 or 1, a reference as its label.
    Push {
        of: Type,
        value: u32,
    },
    PushThis,
    Rd(u8),
    Wr(u8),
    Cons(u8),
    /// `if n`, before its n body commands.
    If(u8),
    Not,
    /// `op o`; `signed` tells that the operands are Int.
    Op {
        operator: Operator,
        signed: bool,
    },
}

impl fmt::Display for Command {
    fn fmt(&self, f: &mut fmt::Formatter<'_>) -> fmt::Result {
        match *self {
            Command::Push { of: Type::Int, value } => write!(f, "push 0 {}", value.cast_signed()),
            Command::Push { of, value } => write!(f, "push {} {value}", of.byte()),
            Command::PushThis => write!(f, "push this"),
            Command::Rd(variable) => write!(f, "rd {variable}"),
            Command::Wr(variable) => write!(f, "wr {variable}"),
            Command::Cons(structure) => write!(f, "cons {structure}"),
            Command::If(count) => write!(f, "if {count}"),
            Command::Not => write!(f, "not"),
            Command::Op { operator, .. } => write!(f, "op {}", operator.byte()),
        }
    }
}
