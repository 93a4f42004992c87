//! Reads a program image on standard input and prints the verdict, the commands, and those of the step 0 of struct 0.
use std::io::Read;

#[path = "../include/audala.rs"]
mod audala;

fn print(list: &[u64]) {
    for word in list {
        println!("kind {} operand {}", word & 255, word >> 32);
    }
}

fn main() -> std::io::Result<()> {
    let mut image = Vec::new();
    std::io::stdin().lock().take(audala::IMAGE_BYTES as u64 + 1).read_to_end(&mut image)?;
    let mut list = vec![0u64; audala::LIST_PLACES];
    let v = audala::check(&image, &mut list);
    if v.number != 0 {
        println!("refused {}", v.number);
        return Ok(());
    }
    println!("{} structs, {} steps, {} commands, depth {}", v.structs, v.steps, v.commands, v.depth);
    print(&list[..v.commands as usize]);
    let p = audala::step(&image, &list, 0, 0);
    if p.number != 0 {
        println!("refused {}", p.number);
        return Ok(());
    }
    println!("struct 0, step 0: from place {}, {} commands", p.start, p.length);
    print(&list[p.start as usize..][..p.length as usize]);
    Ok(())
}
