//! Both readers of program text on the same texts in one process, their images held together: P's text; statements, names, brackets and
//! nesting in 64 KB and in half of it, so that the times of both lengths tell whether a reading is linear.
use crate::best;
use crate::proved::text as read;
use std::hint::black_box;

pub const TEXT_BYTES: usize = 65_536;

pub const IMAGE_BYTES: usize = 32_768;

/// Structs of eight steps, each of so many statements, up to a length.
fn statements(statement: &str, in_a_step: usize, most: usize) -> String {
    let body = statement.repeat(in_a_step);
    let steps: String = (0..8).map(|step| format!("step{step} {{ {body} }}\n")).collect();
    let mut text = String::new();
    for index in 0..16 {
        let next = format!("struct S{index}(load: Int, prev: S{index}, on: Bool) {{\n{steps}}}\n");
        if text.len() + next.len() + "step0".len() > most {
            break;
        }
        text += &next;
    }
    text + "step0"
}

/// An expression in one another, as deep as a length allows.
fn nested(open: &str, close: &str, most: usize) -> String {
    let depth = (most - 64) / (open.len() + close.len());
    format!("struct P(b: Bool) {{ s {{ b := {}b{}; }} }} s", open.repeat(depth), close.repeat(depth))
}

/// P's text.
pub const P: &[u8] = include_bytes!("../../examples/sum.audala");

/// The texts that a length allows, by name.
pub fn texts(most: usize) -> Vec<(&'static str, String)> {
    let small = "struct P(){s{}}s";
    vec![
        ("sums", statements("load := (load + prev.load);\n", 28, most)),
        ("updates", statements("load:=load;", 32, most)),
        ("ifs", statements("if (on && (load < +10)) then { on := !on; }\n", 18, most)),
        ("nots", nested("!", "", most / 3)),
        ("brackets", nested("(", ")", most)),
        ("Fixes", format!("struct P(){{s{{}}}}{}s{}", "Fix(".repeat(most / 6), ")".repeat(most / 6))),
        ("comment", format!("{small}/*{}*/", "*".repeat(most - 40))),
        ("open brackets", format!("struct P(b:Bool){{s{{b:={}", "(".repeat(most - 40))),
    ]
}

fn time(name: &str, text: &[u8], calls: u32) {
    let (mut mine, mut theirs) = (vec![0; IMAGE_BYTES], vec![0; IMAGE_BYTES]);
    let a = read(text, &mut mine);
    let b = text::read_bare(text, &mut theirs);
    assert_eq!((a.number, a.count), (u32::from(b.number), b.blocks), "{name}");
    assert!(mine == theirs, "the images of {name} differ");
    let (first, other) = best(
        calls,
        || {
            black_box(read(black_box(text), &mut mine));
        },
        || {
            black_box(text::read_bare(black_box(text), &mut theirs));
        },
    );
    println!(
        "{name}, {} bytes of text, number {}, {} blocks: proved {:.1} µs, second {:.1} µs, ratio {:.2}",
        text.len(),
        a.number,
        a.count,
        first / 1000.0,
        other / 1000.0,
        first / other
    );
}

pub fn compare() {
    time("P", P, 500);
    for most in [TEXT_BYTES, TEXT_BYTES / 2] {
        for (name, text) in texts(most) {
            time(name, text.as_bytes(), 20);
        }
    }
}
