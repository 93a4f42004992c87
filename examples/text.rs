//! Reads program text on standard input, checks the image that it makes, and prints the answer, the commands and the listing.
use std::io::{Read, Write};

#[path = "../include/audala.rs"]
mod audala;

fn main() -> std::io::Result<()> {
    let mut text = Vec::new();
    std::io::stdin().lock().take(audala::MOST_TEXT as u64 + 1).read_to_end(&mut text)?;
    let mut image = vec![0; audala::IMAGE_BYTES];
    let t = audala::text(&text, &mut image);
    if t.number != 0 {
        println!("refused {}", t.number);
        return Ok(());
    }
    let image = &image[..audala::BLOCK_BYTES * t.count];
    let mut list = vec![0u64; audala::LIST_PLACES];
    let v = audala::check(image, &mut list);
    if v.number != 0 {
        println!("checked {}", v.number);
        return Ok(());
    }
    println!("{} blocks, {} structs, {} steps, {} commands, depth {}", t.count, v.structs, v.steps, v.commands, v.depth);
    for word in &list[..v.commands as usize] {
        println!("kind {} operand {}", word & 255, word >> 32);
    }
    let mut lines = vec![0; audala::LISTING_BYTES];
    let l = audala::listing(image, &mut lines);
    std::io::stdout().write_all(&lines[..l.count])
}
