//! The limits of 01 ("Blocks", "Program stream", number 1) and 02 §1.

/// "text over 65,536 bytes" (02 §1)
pub const TEXT_BYTES: usize = 65_536;

/// Bytes of a block, and where its parts lie (01, "Blocks").
pub const BLOCK: usize = 512;
pub const PAYLOAD_START: usize = 4;
pub const PAYLOAD_END: usize = 508;
pub const PAYLOAD: usize = PAYLOAD_END - PAYLOAD_START;

/// The largest image of a program: "a multiple of 512 from 512 to 32,768"
/// (01, number 1), and the stream bytes that its blocks hold.
pub const PROGRAM_BYTES: usize = 32_768;
pub const STREAM_BYTES: usize = PROGRAM_BYTES / BLOCK * PAYLOAD;

/// Counts and ranges of the program stream (01, "Program stream").
pub const STRUCTS: usize = 16;
pub const PARAMETERS: usize = 8;
pub const STEPS: usize = 8;
pub const STEP_NAMES: usize = 32;
pub const STATEMENTS: usize = 32;
pub const ITEMS: usize = 32;
pub const PATH: usize = 4;
pub const FIRST_LOCAL: u8 = 8;
pub const LOCALS: usize = 8;
