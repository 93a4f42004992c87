//! 16: "no derivation" (02 §1), by the rules of 000, section 3.

mod common;
use common::{number, stream, with};

fn all(expected: u16, texts: &[&str]) {
    for text in texts {
        assert_eq!(number(text), expected, "{text}");
    }
}

fn all_with(expected: u16, statements: &[&str]) {
    for statements in statements {
        assert_eq!(number(&with(statements)), expected, "{statements}");
    }
}

#[test]
fn programs() {
    all(16, &["", "s", "struct", "struct P(){}", "struct P(){s{}}", "struct P(){s{}} s s"]);
    all(16, &["s struct P(){s{}}", "struct P(){s{}} s }", "struct P(){s{}} s ;"]);
    all(16, &["struct P{s{}} s", "struct (){s{}} s", "struct P()s{} s", "struct P(){s} s"]);
    all(16, &["struct P(){s{}{}} s", "struct P(){s{} s", "Struct P(){s{}} s"]);
    all(0, &["struct P(){s{}} s", "struct P(){s{}} struct Q(){s{} t{}} s"]);
}

#[test]
fn parameters() {
    let with = |parameters: &str| number(&format!("struct P({parameters}){{s{{}}}} s"));
    for text in ["", "a:Int", "a : Nat, b : Bool , c:P"] {
        assert_eq!(with(text), 0, "{text}");
    }
    for text in ["a", "a:", ":Int", "a:Int,", ",a:Int", "a:Int b:Int", "a:=Int", "Int:a", "a:1n"] {
        assert_eq!(with(text), 16, "{text}");
    }
    assert_eq!(with("a:String"), 16, "String is such a word but no type");
}

#[test]
fn words_are_no_names() {
    const WORDS: [&str; 12] = [
        "struct", "if", "then", "null", "this", "Fix", "Int", "Nat", "Bool", "String", "true",
        "false",
    ];
    for word in WORDS {
        all(
            16,
            &[
                &format!("struct {word}(){{s{{}}}} s"),
                &format!("struct P({word}:Int){{s{{}}}} s"),
                &format!("struct P(){{{word}{{}}}} {word}"),
                &with(&format!("Int {word} := +1;")),
            ],
        );
        let name = format!("{word}s");
        all(0, &[&format!("struct {name}({name}:{name}){{{name}{{{name}:={name};}}}}{name}")]);
    }
    all(0, &[&with("Int and := +1; Int or := and; Int STRUCT := or; Int n := -1;")]);
}

#[test]
fn statements() {
    all_with(0, &["", "x := +1;", "p.p.x := x;", "Int l := x;", "P q := p;", "P(b,x,y,p);"]);
    all_with(0, &["if b then {}", "if b then { x := x; if b then {} } x := x;"]);
    all_with(16, &[";", "x := +1", "x = +1;", "x : +1;", ":= +1;", "(x) := +1;", "this.x := x;"]);
    all_with(16, &["if b {}", "if b then x := x;", "if then {}", "if b then {};", "if b then {"]);
    all_with(16, &["Int l;", "Int := +1;", "Int l = +1;", "String l := +1;", "P q r := p;"]);
    all_with(16, &["P(b,x,y,p)", "P(b,x,y,p;", "P(b,x,y,);", "P(,);", "P(b x);", "P().x := x;"]);
    all_with(16, &["p. := p;", ".p := p;", "p..p := p;", "p.(p) := p;", "x;", "x.x;", "+1;", "}"]);
    all_with(16, &["P(b,x,y,p) := p;", "null P := p;", "true := b;", "P.q r := p;"]);
}

#[test]
fn operands() {
    let of = |expression: &str| number(&with(&format!("x := {expression};")));
    for text in [
        "x",
        "p.x",
        "p.p.p.x",
        "+1",
        "-1",
        "1n",
        "true",
        "false",
        "this",
        "null Int",
        "null Nat",
        "null Bool",
        "null P",
        "!b",
        "!!b",
        "(x)",
        "((x))",
        "!(b)",
        "(!b)",
        "P(b,x,y,p)",
        "P((b),!b,null P,P(b,x,y,this))",
        "(null P)",
        "(P(b,x,y,p))",
        "(+1)",
        "! ( ! b )",
    ] {
        assert_eq!(of(text), 0, "{text}");
    }
    for text in [
        "",
        "()",
        "(x",
        "x)",
        "(x))",
        "null",
        "null String",
        "null 1n",
        "null this",
        "!",
        "x!",
        "()x",
        "this.x",
        "x.this",
        "p.",
        "P(",
        "P)",
        "P(,)",
        "P(x,)",
        "P(x y)",
        "x x",
        "x,x",
        "null P(x)",
        "(P)(x)",
        "p.P(x)",
        "Int",
        "Int(x)",
        "then",
        "{x}",
        "x := x",
        "!x!",
        "(x)(x)",
        "null(P)",
    ] {
        assert_eq!(of(text), 16, "{text}");
    }
}

#[test]
fn each_binary_expression_stands_in_brackets() {
    let of = |expression: &str| number(&with(&format!("x := {expression};")));
    for operator in ["=", "!=", "<=", ">=", "<", ">", "*", "/", "%", "+", "-", "&&", "||"] {
        assert_eq!(of(&format!("(x {operator} x)")), 0, "{operator}");
        assert_eq!(of(&format!("((x {operator} x))")), 0, "{operator}");
        assert_eq!(of(&format!("!((x){operator}(x))")), 0, "{operator}");
        assert_eq!(of(&format!("((x {operator} x) {operator} (x {operator} x))")), 0);
        assert_eq!(of(&format!("P((x {operator} x),x,y,p)")), 0, "{operator}");
        assert_eq!(of(&format!("x {operator} x")), 16, "{operator}");
        assert_eq!(of(&format!("(x) {operator} x")), 16, "{operator}");
        assert_eq!(of(&format!("(x {operator} x {operator} x)")), 16, "{operator}");
        assert_eq!(of(&format!("(x {operator} x) {operator} x")), 16, "{operator}");
        assert_eq!(of(&format!("P(x {operator} x,x,y,p)")), 16, "{operator}");
        assert_eq!(of(&format!("(x {operator})")), 16, "{operator}");
        assert_eq!(of(&format!("({operator} x)")), 16, "{operator}");
        assert_eq!(of(&format!("(x {operator} {operator} x)")), 16, "{operator}");
    }
    assert_eq!(of("(x == x)"), 16, "= is the operator");
    assert_eq!(number(&with("if b && b then {}")), 16);
    assert_eq!(number(&with("if (b && b) then {}")), 0);
}

#[test]
fn one_reading() {
    let of = |text: &str| common::expression(&stream(&with(&format!("x := {text};")))).to_vec();
    assert_eq!(of("(!b && b)"), [43, 16, 18, 1, 0, 18, 1, 0]);
    assert_eq!(of("!(b && b)"), [16, 43, 18, 1, 0, 18, 1, 0]);
    assert_eq!(of("((x + x) * x)"), [38, 41, 18, 1, 1, 18, 1, 1, 18, 1, 1]);
    assert_eq!(of("(x + (x * x))"), [41, 18, 1, 1, 38, 18, 1, 1, 18, 1, 1]);
    assert_eq!(of("((((x)) + (x)))"), of("(x + x)"));
    assert_eq!(
        of("P((b||b),null Nat,true,this)"),
        [17, 0, 44, 18, 1, 0, 18, 1, 0, 22, 1, 21, 1, 23]
    );
}

#[test]
fn schedules() {
    let of = |schedule: &str| number(&format!("struct P(){{s{{}}}} {schedule}"));
    for text in ["s", "P.s", "s<s", "Fix(s)", "Fix(s<P.s)<s<Fix(Fix(s)<s)", "P . s"] {
        assert_eq!(of(text), 0, "{text}");
    }
    for text in [
        "",
        "<",
        "s<",
        "<s",
        "s s",
        "(s)",
        "Fix",
        "Fix s",
        "Fix()",
        "Fix(s",
        "Fix(s))",
        "s)",
        "s.P.s",
        "s.",
        ".s",
        "Fix.s",
        "Fix(s)Fix(s)",
        "Fix(s<)",
        "s<=s",
        "s;s",
        "s()",
        "Fix(s)(",
        "s<(s<s)",
    ] {
        assert_eq!(of(text), 16, "{text}");
    }
}

#[test]
fn sixteen_comes_before_seventeen() {
    all(16, &["struct P(a:Q){s{b:=+99999999999;}}t<", "struct P(){} struct P(){} s )"]);
    all(16, &[&format!("{} s s", "struct P(){s{}}".repeat(17))]);
}
