//! Reads a program image on standard input, prints its stream as numbers, and writes the stream's image anew: it must be the same.
use std::io::Read;

#[path = "../include/audala.rs"]
mod audala;

fn main() -> std::io::Result<()> {
    let mut image = Vec::new();
    std::io::stdin().lock().take(audala::IMAGE_BYTES as u64 + 1).read_to_end(&mut image)?;
    let mut buffer = vec![0; audala::PAYLOAD_BYTES * audala::PROGRAM_MOST];
    let s = audala::read_image(&image, audala::PROGRAM_MOST, &mut buffer);
    if s.number != 0 {
        println!("refused {}", s.number);
        return Ok(());
    }
    let stream = &buffer[..s.count];
    println!("{}", stream.iter().map(u8::to_string).collect::<Vec<_>>().join(" "));
    let mut again = vec![0; audala::IMAGE_BYTES];
    let w = audala::write_image(stream, audala::PROGRAM_MOST, &mut again);
    let same = w.number == 0 && again[..audala::BLOCK_BYTES * w.count] == image[..];
    println!("written anew: {}", if same { "the same image" } else { "ANOTHER image" });
    Ok(())
}
