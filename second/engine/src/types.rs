//! Types, their bytes and their default values (01, "Program stream").

#[derive(Clone, Copy, PartialEq, Eq, Debug)]
pub enum Type {
    Int,
    Nat,
    Bool,
    Struct(u8),
}

const FIRST_STRUCT: u8 = 16;

impl Type {
    /// The type of a type byte in a program of so many structs.
    pub fn from_byte(byte: u8, structs: usize) -> Option<Type> {
        match byte {
            0 => Some(Type::Int),
            1 => Some(Type::Nat),
            2 => Some(Type::Bool),
            _ => {
                let index = byte.checked_sub(FIRST_STRUCT)?;
                (usize::from(index) < structs).then_some(Type::Struct(index))
            }
        }
    }

    pub fn byte(self) -> u8 {
        match self {
            Type::Int => 0,
            Type::Nat => 1,
            Type::Bool => 2,
            Type::Struct(index) => FIRST_STRUCT + index,
        }
    }

    /// The default value: 0, 0, false, and label k for struct k.
    pub fn default_value(self) -> u32 {
        match self {
            Type::Int | Type::Nat | Type::Bool => 0,
            Type::Struct(index) => u32::from(index),
        }
    }
}
