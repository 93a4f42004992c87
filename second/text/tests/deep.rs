//! Deep and long texts, on a stack of 512 KB: nothing here calls itself on
//! what is nested in the text.

mod common;
use common::with;
use text::{Answer, read, read_bare};

/// The numbers of both readers on a small stack.
fn numbers(text: String) -> (u16, u16) {
    let work = move || {
        let mut output = vec![0; 32_768];
        let mut of =
            |reader: fn(&[u8], &mut [u8]) -> Answer| reader(text.as_bytes(), &mut output).number;
        (of(read), of(read_bare))
    };
    let thread = std::thread::Builder::new().stack_size(512 * 1024).spawn(work);
    thread.expect("a thread").join().expect("no overflow")
}

fn both(expected: u16, text: String) {
    assert!(text.len() <= 65_536, "{}", text.len());
    let start = text[..60.min(text.len())].to_string();
    assert_eq!(numbers(text), (expected, expected), "{start}");
}

/// A text of 65,536 bytes, of this one part over and over.
fn filled(front: &str, part: &str) -> String {
    front.to_string() + &part.repeat((65_536 - front.len()) / part.len())
}

const STEP: &str = "struct P(b:Bool){s{";

#[test]
fn unclosed() {
    for part in ["(", "!", "!(", "(!", "P(", "((b+", "(b+(", "P(b,", "P(b,("] {
        both(16, filled(&format!("{STEP}b:="), part));
        both(16, filled("", part));
    }
    both(16, filled(STEP, "if b then{"));
    both(16, filled(STEP, "if(b)then{b:=b;"));
    both(16, filled("struct P(){s{}}", "Fix("));
    both(16, filled("struct P(){s{}}", "s<Fix("));
    both(16, filled("", "struct P(){s{"));
    both(15, filled("", "/*"));
    both(16, filled("", "}"));
    both(16, filled("", ")"));
}

#[test]
fn closed() {
    let around = |depth: usize, open: &str, inner: &str, close: &str| {
        open.repeat(depth) + inner + &close.repeat(depth)
    };
    let assigned = |expression: String| with(&format!("b := {expression};"));
    both(0, assigned(around(32_000, "(", "b", ")")));
    both(0, assigned(around(32_000, "!", "b", "")));
    both(17, assigned(around(60_000, "!", "b", "")));
    both(0, assigned(around(20_000, "!(", "b", ")")));
    both(0, assigned(around(8_000, "(", "b", "+b)")));
    both(0, assigned(around(8_000, "(b+", "b", ")")));
    both(17, assigned(around(10_000, "(b+", "b", ")")));
    let constructed = around(16_000, "P(", "this", ")");
    both(0, format!("struct P(p:P){{s{{p:={constructed};}}}}s"));
    both(0, format!("struct P(p:P){{s{{{constructed};}}}}s"));
    both(0, with(&around(5_000, "if b then{", "b:=b;", "}")));
    both(0, format!("struct P(){{s{{}}}}{}", around(13_000, "Fix(", "s", ")")));
    both(0, format!("struct P(){{s{{}}}}{}", around(8_000, "Fix(s<", "s", ")")));
}

#[test]
fn bare_chains() {
    let chain = |operator: &str, count| {
        with(&format!("b := b{};", (operator.to_string() + "b").repeat(count)))
    };
    for operator in ["+", "&&", "||", "*", "-"] {
        assert_eq!(numbers(chain(operator, 8_000)), (16, 0));
        assert_eq!(numbers(chain(operator, 8_100)), (16, 17));
    }
}

#[test]
fn long_texts() {
    both(16, filled("", "x "));
    both(17, filled(&format!("struct {}(){{s{{}}}}", "a".repeat(60_000)), "t"));
    both(0, format!("struct {0}(){{s{{}}}} {0}.s", "a".repeat(30_000)));
    both(17, filled("struct P(){s{}}struct Q(){}", "struct P(){}") + "s");
}
