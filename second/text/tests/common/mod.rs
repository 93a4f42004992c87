//! What the tests share: streams out of images, texts and their answers.
#![allow(dead_code)]

use text::{Answer, read, read_bare};

pub const IMAGE_BYTES: usize = 32_768;
const FILLING: u8 = 0xa5;
static FILLED: [u8; IMAGE_BYTES + 100] = [FILLING; IMAGE_BYTES + 100];

pub type Reader = fn(&[u8], &mut [u8]) -> Answer;

/// The joined used payloads of an image, its blocks' form being checked.
fn stream_of(image: &[u8]) -> Vec<u8> {
    let mut stream = Vec::new();
    for (index, block) in image.chunks(512).enumerate() {
        let pair = |at: usize| u16::from_le_bytes([block[at], block[at + 1]]);
        let used = usize::from(pair(2));
        let (mut a, mut b) = (0, 0);
        for (at, byte) in block[..508].iter().enumerate() {
            a += usize::from(*byte);
            b += (508 - at) * usize::from(*byte);
        }
        assert_eq!(usize::from(pair(0)), index);
        assert!(used >= 1 && (used == 504 || index + 1 == image.len() / 512));
        assert!(block[4 + used..508].iter().all(|&byte| byte == 0));
        assert_eq!((pair(508), pair(510)), (a as u16, b as u16));
        stream.extend_from_slice(&block[4..4 + used]);
    }
    stream
}

/// The number of a reading, and the stream it wrote. What must be untouched
/// is checked.
pub fn outcome(reader: Reader, text: &[u8]) -> (u16, Vec<u8>) {
    let mut output = FILLED.to_vec();
    let answer = reader(text, &mut output);
    let (image, rest) = output.split_at(512 * answer.blocks);
    assert!(rest == &FILLED[image.len()..], "untouched bytes");
    assert_eq!(answer.number == 0, answer.blocks > 0);
    (answer.number, stream_of(image))
}

/// The number of a text in which binary expressions stand in brackets.
pub fn number(text: &str) -> u16 {
    outcome(read, text.as_bytes()).0
}

pub fn number_bare(text: &str) -> u16 {
    outcome(read_bare, text.as_bytes()).0
}

/// The stream of an accepted text.
pub fn stream(text: &str) -> Vec<u8> {
    let (number, stream) = outcome(read, text.as_bytes());
    assert_eq!(number, 0, "{text}");
    stream
}

pub fn stream_bare(text: &str) -> Vec<u8> {
    let (number, stream) = outcome(read_bare, text.as_bytes());
    assert_eq!(number, 0, "{text}");
    stream
}

/// The checker's number for the image of an accepted text.
pub fn checked(reader: Reader, text: &[u8]) -> u8 {
    let mut output = vec![FILLING; IMAGE_BYTES];
    let answer = reader(text, &mut output);
    assert_eq!(answer.number, 0, "{}", String::from_utf8_lossy(text));
    engine::check(&output[..512 * answer.blocks], &mut [None; 1024]).number
}

/// A program of one struct P with these statements in its only step s.
pub fn with(statements: &str) -> String {
    format!("struct P(b: Bool, x: Int, y: Nat, p: P) {{ s {{ {statements} }} }} s")
}

/// The stream of one expression, in `x := ...;` of `with`.
pub fn expression(stream: &[u8]) -> &[u8] {
    &stream[12..stream.len() - 3]
}
