//! Reads P's image on standard input, runs it on two records (load, prev) of (5, 2) and (7, 1) with 24 turn bytes of zero, and prints
//! the answer and the loads that the run leaves.
use std::io::Read;

#[path = "../include/audala.rs"]
mod audala;

/// The stream of a table of P's: the count of its records in two bytes, then each one's struct and parameters.
fn stream(records: &[(i32, u32)]) -> Vec<u8> {
    let count = (records.len() as u16).to_le_bytes();
    let record = |&(load, prev): &(i32, u32)| [&[0][..], &load.to_le_bytes(), &prev.to_le_bytes()].concat();
    count.into_iter().chain(records.iter().flat_map(record)).collect()
}

fn main() -> std::io::Result<()> {
    let mut program = Vec::new();
    std::io::stdin().lock().take(audala::IMAGE_BYTES as u64 + 1).read_to_end(&mut program)?;
    let mut table = vec![0; audala::OUTPUT_BYTES];
    let w = audala::write_image(&stream(&[(5, 2), (7, 1)]), audala::TABLE_MOST, &mut table);
    let (mut output, mut list) = (vec![0; audala::OUTPUT_BYTES], vec![0; audala::LIST_PLACES]);
    let r = audala::run(&program, &table[..audala::BLOCK_BYTES * w.count], &[0; 24], &mut output, &mut list);
    println!("number {}, {} turns, {} blocks, depth {}, {} hold commands", r.number, r.turns, r.blocks, r.depth, r.holding);
    let mut last = vec![0; audala::OUTPUT_BYTES];
    let s = audala::read_image(&output[..audala::BLOCK_BYTES * r.blocks as usize], audala::TABLE_MOST, &mut last);
    if s.number == 0 {
        let load = |at: usize| i32::from_le_bytes(last[at..at + 4].try_into().expect("four bytes"));
        println!("loads {} and {}", load(3), load(12));
    }
    Ok(())
}
