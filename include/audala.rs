//! The AuDaLa checker, engine and reader of program text for Rust: what audala.h declares, over slices. Link with libaudala.a (`tools/staticlib.sh`, or
//! dist/audala.c compiled), and take this file as a module: `#[path = "../include/audala.rs"] mod audala;`. What numbers and fields mean stands in audala.h.
#![allow(dead_code)]

pub const VERSION: &str = "0.1.0";

/// Bytes of a block, and of the stream that it holds; blocks that an image has at most.
pub const BLOCK_BYTES: usize = 512;
pub const PAYLOAD_BYTES: usize = 504;
pub const PROGRAM_MOST: usize = 64;
pub const TABLE_MOST: usize = 17;

/// Places of a list, and bytes of outputs: of a run, of program text, of a listing; else 13.
pub const LIST_PLACES: usize = 1_024;
pub const OUTPUT_BYTES: usize = TABLE_MOST * BLOCK_BYTES;
pub const IMAGE_BYTES: usize = PROGRAM_MOST * BLOCK_BYTES;
pub const LISTING_BYTES: usize = 131_072;

/// Turn bytes at most, else 14; bytes of a text at most, else 15.
pub const MOST_TURNS: usize = 65_536;
pub const MOST_TEXT: usize = 65_536;

/// What a check answers.
#[repr(C)]
#[derive(Clone, Copy, Debug, PartialEq, Eq)]
pub struct Verdict {
    pub number: u32,
    pub structs: u32,
    pub steps: u32,
    pub commands: u32,
    pub depth: u32,
}

/// Where the commands of one step stand in the list.
#[repr(C)]
#[derive(Clone, Copy, Debug, PartialEq, Eq)]
pub struct Part {
    pub number: u32,
    pub start: u32,
    pub length: u32,
}

/// What a run answers.
#[repr(C)]
#[derive(Clone, Copy, Debug, PartialEq, Eq)]
pub struct Report {
    pub number: u32,
    pub turns: u32,
    pub blocks: u32,
    pub depth: u32,
    pub holding: u32,
}

/// How many orders of a step end in which way; after a refusal all but the number are 0.
#[repr(C)]
#[derive(Clone, Copy, Debug, PartialEq, Eq)]
pub struct Counts {
    pub number: u32,
    pub true_orders: u32,
    pub false_orders: u32,
    pub stopped: u32,
}

/// What reading or writing an image, reading program text or listing answers.
#[repr(C)]
#[derive(Clone, Copy, Debug, PartialEq, Eq)]
pub struct Copied {
    pub number: u32,
    pub count: usize,
}

/// Where reading a text stops: how many bytes are before the place.
#[repr(C)]
#[derive(Clone, Copy, Debug, PartialEq, Eq)]
pub struct Stopped {
    pub at: usize,
}

/// What a page of a trace answers.
#[repr(C)]
#[derive(Clone, Copy, Debug, PartialEq, Eq)]
pub struct Traced {
    pub number: u32,
    pub turns: u32,
    pub length: u64,
    pub count: usize,
}

mod entries {
    use super::{Copied, Counts, Part, Report, Stopped, Traced, Verdict};

    unsafe extern "C" {
        pub fn audala_check(image: *const u8, length: usize, list: *mut u64, places: usize) -> Verdict;
        pub fn audala_step(image: *const u8, length: usize, list: *const u64, places: usize, structure: u8, name: u8) -> Part;
        pub fn audala_run(
            program: *const u8,
            program_length: usize,
            table: *const u8,
            table_length: usize,
            turns: *const u8,
            turn_count: usize,
            output: *mut u8,
            output_length: usize,
            list: *mut u64,
            places: usize,
        ) -> Report;
        pub fn audala_count(
            program: *const u8,
            program_length: usize,
            table: *const u8,
            table_length: usize,
            name: u32,
            label: u32,
            parameter: u32,
            list: *mut u64,
            places: usize,
        ) -> Counts;
        pub fn audala_read_image(image: *const u8, length: usize, most: usize, buffer: *mut u8, room: usize) -> Copied;
        pub fn audala_write_image(stream: *const u8, length: usize, most: usize, output: *mut u8, room: usize) -> Copied;
        pub fn audala_text(text: *const u8, length: usize, output: *mut u8, room: usize) -> Copied;
        pub fn audala_place(text: *const u8, length: usize) -> Stopped;
        pub fn audala_listing(image: *const u8, length: usize, output: *mut u8, room: usize) -> Copied;
        pub fn audala_trace(
            program: *const u8,
            program_length: usize,
            table: *const u8,
            table_length: usize,
            turns: *const u8,
            turn_count: usize,
            from: u64,
            output: *mut u8,
            room: usize,
        ) -> Traced;
    }
}

// Each call below reads what it is lent and writes what it is lent mutably, within the lengths that it is handed, for any contents: it is safe on any slices.

/// Checks a program image; the commands of an accepted one stand in the list.
pub fn check(image: &[u8], list: &mut [u64]) -> Verdict {
    // SAFETY: as said above.
    unsafe { entries::audala_check(image.as_ptr(), image.len(), list.as_mut_ptr(), list.len()) }
}

/// The part of the list for a step.
pub fn step(image: &[u8], list: &[u64], structure: u8, name: u8) -> Part {
    // SAFETY: as said above.
    unsafe { entries::audala_step(image.as_ptr(), image.len(), list.as_ptr(), list.len(), structure, name) }
}

/// Runs a program image on a table image with these turn bytes; the last table stands in the output, the commands in the list.
pub fn run(program: &[u8], table: &[u8], turns: &[u8], output: &mut [u8], list: &mut [u64]) -> Report {
    // SAFETY: as said above.
    unsafe {
        entries::audala_run(
            program.as_ptr(),
            program.len(),
            table.as_ptr(),
            table.len(),
            turns.as_ptr(),
            turns.len(),
            output.as_mut_ptr(),
            output.len(),
            list.as_mut_ptr(),
            list.len(),
        )
    }
}

/// Counts the orders of a step on a table by what they leave in a Bool parameter of a label; the commands stand in the list.
pub fn count(program: &[u8], table: &[u8], name: u32, label: u32, parameter: u32, list: &mut [u64]) -> Counts {
    // SAFETY: as said above.
    unsafe {
        entries::audala_count(
            program.as_ptr(),
            program.len(),
            table.as_ptr(),
            table.len(),
            name,
            label,
            parameter,
            list.as_mut_ptr(),
            list.len(),
        )
    }
}

/// The stream of an image of at most `most` blocks in the front of the buffer.
pub fn read_image(image: &[u8], most: usize, buffer: &mut [u8]) -> Copied {
    // SAFETY: as said above.
    unsafe { entries::audala_read_image(image.as_ptr(), image.len(), most, buffer.as_mut_ptr(), buffer.len()) }
}

/// The image of a stream in at most `most` blocks in the front of the output.
pub fn write_image(stream: &[u8], most: usize, output: &mut [u8]) -> Copied {
    // SAFETY: as said above.
    unsafe { entries::audala_write_image(stream.as_ptr(), stream.len(), most, output.as_mut_ptr(), output.len()) }
}

/// The image of the program that a text means in the front of the output.
pub fn text(text: &[u8], output: &mut [u8]) -> Copied {
    // SAFETY: as said above.
    unsafe { entries::audala_text(text.as_ptr(), text.len(), output.as_mut_ptr(), output.len()) }
}

/// The place at which reading a text stops, as a count of the bytes before it.
pub fn place(text: &[u8]) -> usize {
    // SAFETY: as said above.
    unsafe { entries::audala_place(text.as_ptr(), text.len()).at }
}

/// The listing of a program image in the front of the output.
pub fn listing(image: &[u8], output: &mut [u8]) -> Copied {
    // SAFETY: as said above.
    unsafe { entries::audala_listing(image.as_ptr(), image.len(), output.as_mut_ptr(), output.len()) }
}

/// The trace of a run from the place `from` of its text on, as much as the output holds, in the front of the output.
pub fn trace(program: &[u8], table: &[u8], turns: &[u8], from: u64, output: &mut [u8]) -> Traced {
    // SAFETY: as said above.
    unsafe {
        entries::audala_trace(
            program.as_ptr(),
            program.len(),
            table.as_ptr(),
            table.len(),
            turns.as_ptr(),
            turns.len(),
            from,
            output.as_mut_ptr(),
            output.len(),
        )
    }
}
