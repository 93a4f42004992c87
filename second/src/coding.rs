//! The coding of a lent list's places: docs/CASES.md, "Answers".

use engine::Command;

/// What an untouched place holds.
pub const LIST_FILL: u64 = 0xA5A5_A5A5_A5A5_A5A5;

/// A place of the list as one number.
pub fn coded(place: Option<Command>) -> u64 {
    place.map_or(LIST_FILL, command)
}

/// kind + 256 × type byte + 2^32 × value.
fn command(given: Command) -> u64 {
    let (kind, type_byte, value) = match given {
        Command::Push { of, value } => (1, of.byte(), value),
        Command::PushThis => (2, 0, 0),
        Command::Rd(variable) => (3, 0, u32::from(variable)),
        Command::Wr(variable) => (4, 0, u32::from(variable)),
        Command::Cons(structure) => (5, 0, u32::from(structure)),
        Command::If(count) => (6, 0, u32::from(count)),
        Command::Not => (7, 0, 0),
        Command::Op { operator, .. } => (8, 0, u32::from(operator.byte())),
    };
    kind + (u64::from(type_byte) << 8) + (u64::from(value) << 32)
}
