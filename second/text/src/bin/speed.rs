//! Prints how long a reading of some long texts takes: number, blocks, bytes,
//! the least and the median of the times in microseconds.

use std::time::Instant;
use text::{Answer, read, read_bare};

const TEXT_BYTES: usize = 65_536;
const CALLS: usize = 201;

/// Structs of eight steps, each of as many statements, up to 65,536 bytes.
fn statements(statement: &str, in_a_step: usize) -> String {
    let body = statement.repeat(in_a_step);
    let steps: String = (0..8).map(|step| format!("step{step} {{ {body} }}\n")).collect();
    let mut text = String::new();
    for index in 0..16 {
        let next = format!("struct S{index}(load: Int, prev: S{index}, on: Bool) {{\n{steps}}}\n");
        if text.len() + next.len() + "step0".len() > TEXT_BYTES {
            break;
        }
        text += &next;
    }
    text + "step0"
}

fn one_expression(open: &str, close: &str, depth: usize) -> String {
    let (open, close) = (open.repeat(depth), close.repeat(depth));
    format!("struct P(b: Bool) {{ s {{ b := {open}b{close}; }} }} s")
}

fn texts() -> Vec<(&'static str, String)> {
    let small = "struct P(){s{}}s";
    vec![
        ("sums", statements("load := (load + prev.load);\n", 28)),
        ("updates", statements("load:=load;", 32)),
        ("ifs", statements("if (on && (load < +10)) then { on := !on; }\n", 18)),
        ("declarations", statements("Int a1:=+1;Int a2:=a1;a2:=a1;", 1)),
        ("too many", format!("struct P(x:P){{s{{{}}}}}s", "x:=x;".repeat(13_000))),
        ("nots", one_expression("!", "", 32_000)),
        ("brackets", one_expression("(", ")", 32_000)),
        ("nested sums", one_expression("(", "+b)", 8_000)),
        ("Fixes", format!("struct P(){{s{{}}}}{}s{}", "Fix(".repeat(13_000), ")".repeat(13_000))),
        ("comment", format!("{small}/*{}*/", "*".repeat(60_000))),
        ("blanks", small.to_string() + &" ".repeat(60_000)),
        ("names", "abc ".repeat(16_000)),
        ("open brackets", "struct P(b:Bool){s{b:=".to_string() + &"(".repeat(65_000)),
    ]
}

fn measure(name: &str, text: &str, reader: fn(&[u8], &mut [u8]) -> Answer) {
    let mut output = vec![0; 32_768];
    let mut times = Vec::with_capacity(CALLS);
    let mut answer = Answer { number: 0, blocks: 0 };
    for _ in 0..CALLS {
        let start = Instant::now();
        answer = reader(std::hint::black_box(text.as_bytes()), &mut output);
        times.push(start.elapsed());
    }
    times.sort_unstable();
    let micros = |index: usize| times[index].as_nanos() as f64 / 1000.0;
    let (least, median) = (micros(0), micros(CALLS / 2));
    let Answer { number, blocks } = answer;
    println!("{name:15} {number:3} {blocks:3} {:6} {least:9.1} {median:9.1}", text.len());
}

fn main() {
    for (name, text) in texts() {
        measure(name, &text, read);
        measure(&format!("{name}, bare"), &text, read_bare);
    }
}
