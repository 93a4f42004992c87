//! Blocks of 512 bytes: their sums, index, used count and unused bytes
//! (01, "Blocks"), read into a stream and written from one.

use crate::limits::{BLOCK, PAYLOAD, PAYLOAD_END, PAYLOAD_START};

/// What is wrong with an image, before its stream is looked at.
#[derive(Clone, Copy, PartialEq, Eq, Debug)]
pub enum BlockFault {
    Length,
    Sums,
    Form,
}

/// Sums A and B over bytes 0 to 507, both wrapping at 65,536; byte i weighs
/// 508 - i in B.
fn sums(block: &[u8]) -> (u16, u16) {
    let mut a = 0u16;
    let mut b = 0u16;
    let mut weight = PAYLOAD_END as u16;
    for &byte in &block[..PAYLOAD_END] {
        a = a.wrapping_add(u16::from(byte));
        b = b.wrapping_add(u16::from(byte).wrapping_mul(weight));
        weight = weight.wrapping_sub(1);
    }
    (a, b)
}

fn pair(block: &[u8], at: usize) -> u16 {
    u16::from_le_bytes([block[at], block[at + 1]])
}

/// The used payload of one block, as a part starting at its byte 4.
fn payload(block: &[u8], index: usize, last: bool) -> Result<&[u8], BlockFault> {
    if sums(block) != (pair(block, PAYLOAD_END), pair(block, PAYLOAD_END + 2)) {
        return Err(BlockFault::Sums);
    }
    let used = usize::from(pair(block, 2));
    let used_allowed = if last { (1..=PAYLOAD).contains(&used) } else { used == PAYLOAD };
    if usize::from(pair(block, 0)) != index || !used_allowed {
        return Err(BlockFault::Form);
    }
    let (payload, unused) = block[PAYLOAD_START..PAYLOAD_END].split_at(used);
    if unused.iter().any(|&byte| byte != 0) {
        return Err(BlockFault::Form);
    }
    Ok(payload)
}

/// The stream of an image of at most `longest` bytes.
pub fn stream(image: &[u8], longest: usize) -> Result<Vec<u8>, BlockFault> {
    if image.is_empty() || image.len() > longest || !image.len().is_multiple_of(BLOCK) {
        return Err(BlockFault::Length);
    }
    let count = image.len() / BLOCK;
    let mut stream = Vec::with_capacity(count * PAYLOAD);
    for (index, block) in image.chunks_exact(BLOCK).enumerate() {
        stream.extend_from_slice(payload(block, index, index + 1 == count)?);
    }
    Ok(stream)
}

/// Writes a stream as blocks from the output's first byte; the number of
/// blocks written. The output has room for them.
pub fn write(stream: &[u8], output: &mut [u8]) -> usize {
    let mut written = 0;
    for (payload, block) in stream.chunks(PAYLOAD).zip(output.chunks_exact_mut(BLOCK)) {
        let (used, unused) = block[PAYLOAD_START..PAYLOAD_END].split_at_mut(payload.len());
        used.copy_from_slice(payload);
        unused.fill(0);
        block[..2].copy_from_slice(&(written as u16).to_le_bytes());
        block[2..PAYLOAD_START].copy_from_slice(&(payload.len() as u16).to_le_bytes());
        let (a, b) = sums(block);
        block[PAYLOAD_END..PAYLOAD_END + 2].copy_from_slice(&a.to_le_bytes());
        block[PAYLOAD_END + 2..].copy_from_slice(&b.to_le_bytes());
        written += 1;
    }
    written
}
