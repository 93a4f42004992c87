//! Writes a stream as blocks of 512 bytes (01, "Blocks").

use crate::limits::{BLOCK, PAYLOAD, PAYLOAD_END, PAYLOAD_START};

/// "Sum A of bytes 0 to 507", "sum B of (508 - i) x byte i", both wrapping at
/// 65,536. B is the sum of A's values after each byte.
fn sums(block: &[u8]) -> (u16, u16) {
    let (a, b) = block[..PAYLOAD_END].iter().fold((0u32, 0u32), |(a, b), &byte| {
        let a = a + u32::from(byte);
        (a, b + a)
    });
    (a as u16, b as u16)
}

fn fill(block: &mut [u8], index: usize, payload: &[u8]) {
    block[..2].copy_from_slice(&(index as u16).to_le_bytes());
    block[2..PAYLOAD_START].copy_from_slice(&(payload.len() as u16).to_le_bytes());
    let (used, unused) = block[PAYLOAD_START..PAYLOAD_END].split_at_mut(payload.len());
    used.copy_from_slice(payload);
    unused.fill(0);
    let (a, b) = sums(block);
    block[PAYLOAD_END..PAYLOAD_END + 2].copy_from_slice(&a.to_le_bytes());
    block[PAYLOAD_END + 2..BLOCK].copy_from_slice(&b.to_le_bytes());
}

/// Writes the blocks from the output's first byte on; the number of them.
/// The output has room.
pub fn write(stream: &[u8], output: &mut [u8]) -> usize {
    let payloads = stream.chunks(PAYLOAD);
    let count = payloads.len();
    for (index, (payload, block)) in payloads.zip(output.chunks_exact_mut(BLOCK)).enumerate() {
        fill(block, index, payload);
    }
    count
}
