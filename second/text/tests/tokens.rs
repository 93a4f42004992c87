//! 15: "text over 65,536 bytes, an unclosed comment, or a character sequence
//! that is no token" (02 §1), and how text is taken apart.

mod common;
use common::{expression, number, stream, with};

const P: &str = "struct P(){s{}}s";

#[test]
fn length_of_the_text() {
    let padded = |length: usize| P.to_string() + &" ".repeat(length - P.len());
    assert_eq!(number(&padded(65_536)), 0);
    assert_eq!(number(&padded(65_537)), 15);
    assert_eq!(number(&" ".repeat(65_536)), 16);
    assert_eq!(number(&" ".repeat(65_537)), 15);
}

#[test]
fn comments() {
    for closed in ["/**/", "/***/", "/*/*/", "/* /* */", "/*\n*//**/", "/*/**/", "/*\u{2212}*/"] {
        assert_eq!(number(&format!("{P}{closed}")), 0, "{closed}");
        assert_eq!(number(&format!("{closed}{P}")), 0, "{closed}");
    }
    for unclosed in ["/*", "/*/", "/* *", "/**/ /*", "/*/**", "/**"] {
        assert_eq!(number(&format!("{P}{unclosed}")), 15, "{unclosed}");
    }
    assert_eq!(number(&format!("{P}/*/*a*/*/")), 16, "comments do not nest");
    assert_eq!(number(&format!("{P}*/")), 16);
}

#[test]
fn no_token() {
    for part in ["1", "12", "&", "|", "&&&", "_a", "\"a\"", "#", "~", "\\", "'", "?", "[", "^", "$"]
    {
        assert_eq!(number(&format!("{P} {part}")), 15, "{part}");
    }
    for part in
        ["\u{2212}", "\u{d7}", "\u{2260}", "\u{2264}", "é", "\0", "\u{b}", "\u{c}", "\u{a0}"]
    {
        assert_eq!(number(&format!("{P} {part}")), 15, "{part:?}");
    }
    for part in ["&&", "||", "1n", "+1", "-1", "a_", "=", "==", "!==", "1n1n", "+1n", "String"] {
        assert_eq!(number(&format!("{P} {part}")), 16, "{part}");
    }
    assert_eq!(number("struct P(){s{}}s < 1"), 15, "15 comes before 16");
    assert_eq!(number("struct P(){s{}}t < 1"), 15, "15 comes before 17");
}

#[test]
fn bytes_beyond_ascii() {
    for byte in 0..=255u8 {
        let text = [P.as_bytes(), b" ", &[byte]].concat();
        let token = byte.is_ascii_alphabetic() || b"(){},:;.!=<>*/%+-".contains(&byte);
        let blank = b" \t\n\r".contains(&byte);
        let expected = if blank {
            0
        } else if token {
            16
        } else {
            15
        };
        assert_eq!(common::outcome(text::read, &text).0, expected, "{byte}");
    }
}

#[test]
fn parted_tokens() {
    let tight = "struct P(x:Int,p:P){s{x:=(x+p.x);if(x<=p.x)then{P(x,p);}}}Fix(s<P.s)";
    let wide = "struct\tP\r( x\n:Int , p : P ) { s { x := ( x + p . x ) ; if ( x <= p . x ) \
                then { P ( x , p ) ; } } } Fix ( s < P . s ) ";
    let noted = tight.replace("Int", "/*a*/Int/***/").replace("struct ", "struct/* */");
    assert_eq!(stream(tight), stream(wide));
    assert_eq!(stream(tight), stream(&noted));
    for parted in ["x : = +1;", "x := (x < = x);", "x := (x ! = x);", "b := (b & & b);"] {
        assert!([15, 16].contains(&number(&with(parted))), "{parted}");
    }
}

#[test]
fn the_longest_token_first() {
    let of = |text: &str| expression(&stream(&with(&format!("x := {text};")))).to_vec();
    assert_eq!(of("(x - +1)"), of("(x-+1)"));
    assert_eq!(of("(-1--1)"), [42, 19, 255, 255, 255, 255, 19, 255, 255, 255, 255]);
    assert_eq!(of("(1n- 2n)"), of("(1n-/**/2n)"));
    assert_eq!(of("(x*x)"), [38, 18, 1, 1, 18, 1, 1]);
    assert_eq!(number(&with("x := (x-1);")), 16, "x and the literal -1");
    assert_eq!(number(&with("y := (y-1n);")), 16, "y, -1 and a name");
    assert_eq!(number(&with("y := (y - 1n);")), 0);
    assert_eq!(number(&with("x := (x - 1);")), 15, "digits alone");
    assert_eq!(number(&with("x := - 1;")), 15);
    assert_eq!(number(&with("if(y=1n)then{}if true then{}")), 0);
    assert_eq!(number(&with("b := !!b; b := (b!=!b);")), 0);
    assert_eq!(number(&with("b := (b!!=b);")), 16);
}
