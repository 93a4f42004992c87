//! 17 (02 §1): names, literals, arguments and counts, at the edge and one
//! beyond, and what is left to the checker.

mod common;
use common::{checked, expression, number, stream, with};
use text::read;

fn all(expected: u16, texts: &[&str]) {
    for text in texts {
        assert_eq!(number(text), expected, "{text}");
    }
}

fn all_with(expected: u16, statements: &[&str]) {
    for statements in statements {
        assert_eq!(number(&with(statements)), expected, "{statements}");
    }
}

fn listed(count: usize, separator: &str, part: impl Fn(usize) -> String) -> String {
    (0..count).map(part).collect::<Vec<_>>().join(separator)
}

#[test]
fn structs_are_alive_in_the_whole_program() {
    all(0, &["struct P(q:Q){s{q:=Q();Q l:=null Q;Q();}} struct Q(){} Q.s"]);
    all(17, &["struct P(q:Q){s{}} s", "struct P(){s{Q l:=this;}} s", "struct P(){s{Q();}} s"]);
    all(17, &[&with("p := null Q;"), &with("p := Q();"), "struct P(){s{}} Q.s"]);
    all(17, &["struct P(p:s){s{}} s", "struct P(p:Int){s{p();}} s", "struct P(){s{}} s.s"]);
}

#[test]
fn variables() {
    all_with(17, &["z := x;", "x := z;", "s := x;", "P := x;", "x := P;", "x := s;"]);
    all_with(0, &["Int l := x; l := l;", "P q := p; q.p.x := q.q2;".replace("q2", "x").as_str()]);
    all_with(17, &["Int l := l;", "l := x; Int l := x;", "Int l := P(b, l, y, p);"]);
    all_with(17, &["if b then { Int l := x; } l := x;", "if b then { Int l := x; } x := l;"]);
    all_with(0, &["if b then { Int l := x; l := l; if b then { l := l; } l := l; }"]);
    all_with(0, &["Int l := x; if b then { Int m := l; } l := x;"]);
    all_with(17, &["Int l := x; if b then { if b then { Int m := l; } m := x; } l := x;"]);
    all_with(17, &["if b then { Bool l := b; } if l then {}"]);
    all(
        17,
        &[
            "struct P(){s{Int l:=+1;} t{l:=+1;}} s",
            "struct P(){s{q:=+1;}} struct Q(q:Int){} s",
            "struct P(){s{Int l:=+1;} t{Int m:=m;}} s",
        ],
    );
}

#[test]
fn later_variables_are_parameters_of_the_struct_referred_to() {
    all_with(0, &["x := p.x;", "p.p.p.p := p;", "x := p.p.p.x;"]);
    all_with(17, &["x := p.z;", "x := x.x;", "x := x.p;", "b := b.b;", "P q := p; x := p.q;"]);
    let other = "struct P(q:Q,a:Int){s{a:=q.b;}} struct Q(b:Int,p:P){t{b:=p.a;b:=p.q.p.a;}} s";
    all(0, &[other]);
    all(17, &["struct P(q:Q,a:Int){s{a:=q.a;}} struct Q(b:Int){} s"]);
}

#[test]
fn declared_twice() {
    all(17, &["struct P(){s{}} struct P(){} s", "struct P(a:Int,a:Nat){s{}} s"]);
    all(17, &["struct P(a:Int,b:Int,a:Int){s{}} s"]);
    all(0, &["struct P(a:Int){s{}} struct Q(a:Nat){} s"]);
    all_with(17, &["Int l := x; Int l := x;", "Int l := x; if b then { Int l := x; }"]);
    all_with(17, &["if b then { Int l := x; } if b then { Int l := x; }"]);
    all_with(17, &["if b then { Int l := x; } Nat l := y;"]);
    all_with(17, &["Int x := x;", "Int p := x;", "if b then { Int y := x; }"]);
    all(0, &["struct P(){s{Int l:=+1;} t{Nat l:=1n;}} struct Q(l:Int){} s"]);
    all(0, &["struct s(s:s){s{s:=s;}} s.s", "struct P(){s{Int P:=+1;Int s:=P;}} s"]);
}

#[test]
fn left_to_the_checker() {
    let seven = |text: &str| assert_eq!(checked(read, text.as_bytes()), 7, "{text}");
    seven("struct P(){s{} s{}} s");
    seven("struct P(){s{}} struct Q(){t{}} P.t");
    all(17, &["struct P(){s{}} t", "struct P(){s{}} P.t", "struct P(){s{}} Fix(s<P)"]);
    let eight = |text: &str| assert_eq!(checked(read, text.as_bytes()), 8, "{text}");
    eight(&with("x := y;"));
    eight(&with("x := null Nat;"));
    eight(&with("P(x, x, y, p);"));
}

#[test]
fn literals() {
    let of = |text: &str| number(&with(&format!("x := {text};")));
    let bytes = |text: &str| expression(&stream(&with(&format!("x := {text};"))))[..5].to_vec();
    assert_eq!(bytes("+2147483647"), [19, 255, 255, 255, 127]);
    assert_eq!(bytes("-2147483648"), [19, 0, 0, 0, 128]);
    assert_eq!(bytes("4294967295n"), [20, 255, 255, 255, 255]);
    assert_eq!(bytes("-0"), [19, 0, 0, 0, 0]);
    assert_eq!(bytes("+0000000000000000000000000000000000000007"), [19, 7, 0, 0, 0]);
    assert_eq!(bytes("000000000000000000000000000000000000258n"), [20, 2, 1, 0, 0]);
    for text in ["+2147483648", "-2147483649", "4294967296n", "+99999999999", "-99999999999"] {
        assert_eq!(of(text), 17, "{text}");
    }
    for power in [32, 63, 64, 65] {
        let (past, signed) = (1u128 << power, (1u128 << power) + 1);
        assert_eq!((of(&format!("{past}n")), of(&format!("+{signed}"))), (17, 17));
        assert_eq!(of(&format!("-{signed}")), 17);
    }
    assert_eq!(of(&format!("{}n", "9".repeat(60_000))), 17);
}

#[test]
fn one_argument_per_parameter() {
    for parameters in 0..=8 {
        for given in 0..=10 {
            let declared = listed(parameters, ",", |index| format!("p{index}:Int"));
            let list = listed(given, ",", |_| "+1".to_string());
            let expected = if given == parameters { 0 } else { 17 };
            let text = |body: &str| format!("struct Q({declared}){{s{{{body}Q({list});}}}} s");
            assert_eq!(number(&text("")), expected, "{parameters} {given}");
            assert_eq!(number(&text("Q q:=")), expected, "{parameters} {given}");
        }
    }
}

#[test]
fn counts_of_declarations() {
    let structs = |count| {
        let steps = |index| if index == 0 { "s{}" } else { "" };
        listed(count, "", |index| format!("struct S{index}(){{{}}}", steps(index))) + " s"
    };
    assert_eq!((number(&structs(16)), number(&structs(17))), (0, 17));
    let parameters = |count| {
        let list = listed(count, ",", |index| format!("p{index}:Int"));
        format!("struct P({list}){{s{{}}}} s")
    };
    assert_eq!((number(&parameters(8)), number(&parameters(9))), (0, 17));
    let steps =
        |count| format!("struct P(){{{}}} s0", listed(count, "", |index| format!("s{index}{{}}")));
    assert_eq!((number(&steps(8)), number(&steps(9))), (0, 17));
    let one_name = |count| format!("struct P(){{{}}} s", "s{}".repeat(count));
    assert_eq!((number(&one_name(8)), number(&one_name(9))), (0, 17));
    let names = |count: usize| {
        let of = |index: usize| {
            let names = 8.min(count.saturating_sub(8 * index));
            let list = listed(names, "", |name| format!("s{}{{}}", 8 * index + name));
            format!("struct S{index}(){{{list}}}")
        };
        listed(5, "", of) + &format!(" s{}", count - 1)
    };
    assert_eq!((number(&names(32)), number(&names(33))), (0, 17));
}

#[test]
fn counts_of_statements_and_items() {
    let many = |count| "x:=x;".repeat(count);
    assert_eq!((number(&with(&many(32))), number(&with(&many(33)))), (0, 17));
    let body = |count| with(&format!("if b then {{{}}}", many(count)));
    assert_eq!((number(&body(32)), number(&body(33))), (0, 17));
    let ifs = |count| with(&"if b then {}".repeat(count));
    assert_eq!((number(&ifs(32)), number(&ifs(33))), (0, 17));
    let path = |length| with(&format!("{} := p;", listed(length, ".", |_| "p".to_string())));
    assert_eq!((number(&path(4)), number(&path(5))), (0, 17));
    let read_path = |length| with(&format!("p := {};", listed(length, ".", |_| "p".to_string())));
    assert_eq!((number(&read_path(4)), number(&read_path(5))), (0, 17));
    let locals = |count| with(&listed(count, "", |index| format!("Int l{index}:=x;")));
    assert_eq!((number(&locals(8)), number(&locals(9))), (0, 17));
    let parted =
        |count| with(&listed(count, "", |index| format!("if b then {{Int l{index}:=x;}}")));
    assert_eq!((number(&parted(8)), number(&parted(9))), (0, 17));
    let items = |count| listed(count, "<", |_| "s".to_string());
    let schedule = |schedule: String| number(&format!("struct P(){{s{{}}}} {schedule}"));
    assert_eq!((schedule(items(32)), schedule(items(33))), (0, 17));
    let fix = |count| format!("s<Fix({})", items(count));
    assert_eq!((schedule(fix(32)), schedule(fix(33))), (0, 17));
    let outer = |count| items(count) + &format!("<Fix({})", items(32));
    assert_eq!((schedule(outer(31)), schedule(outer(32))), (0, 17));
}

/// "more [...] than the stream's [...] bytes hold": 64 blocks of 504.
#[test]
fn bytes_of_the_stream() {
    let nots = |count| with(&format!("b := {}b;", "!".repeat(count)));
    let rest = stream(&nots(0)).len();
    let (number, full) = common::outcome(read, nots(32_256 - rest).as_bytes());
    assert_eq!((number, full.len()), (0, 32_256));
    assert_eq!(common::number(&nots(32_257 - rest)), 17);
}

/// "nesting apart": the checker refuses what nests too deep, with 5.
#[test]
fn nesting_is_left_to_the_checker() {
    let five = |text: String, expected: u8| {
        assert_eq!(checked(read, text.as_bytes()), expected, "{text}");
    };
    let ifs = |depth| with(&("if b then {".repeat(depth) + &"}".repeat(depth)));
    let nots = |depth| with(&format!("b := {}b;", "!".repeat(depth)));
    let fixes = |depth| {
        let fixed = "Fix(".repeat(depth) + "s" + &")".repeat(depth);
        format!("struct P(){{s{{}}}} {fixed}")
    };
    let brackets = |depth| with(&format!("x := {}x{};", "(".repeat(depth), ")".repeat(depth)));
    for (deepest, text) in [(8, ifs as fn(usize) -> String), (8, fixes), (15, nots)] {
        five(text(deepest), 0);
        five(text(deepest + 1), 5);
        five(text(300), 5);
    }
    five(brackets(3000), 0);
}

#[test]
fn numbers_in_order_of_first_declaration() {
    let text = "struct A(x:B,y:Int){t{} u{y:=y;}} struct B(z:A){u{} t{} v{z.x:=x2;}} v<A.u<t";
    assert_eq!(number(text), 17);
    assert_eq!(
        stream(&text.replace("x2", "this")),
        [
            2, 2, 17, 0, 1, 16, // structs
            2, 0, 0, 1, 1, 3, 1, 1, 18, 1, 1, // steps of A
            3, 1, 0, 0, 0, 2, 1, 3, 2, 0, 0, 23, // steps of B
            3, 1, 2, 2, 0, 1, 1, 0, // schedule
        ]
    );
    let locals = "if b then { Int k := x; } Nat l := y; if b then { P m := p; m := m; } y := l;";
    assert_eq!(
        stream(&with(locals))[8..],
        [
            4, 1, 18, 1, 0, 1, 2, 0, 8, 18, 1, 1, 2, 1, 9, 18, 1, 2, 1, 18, 1, 0, 2, 2, 16, 10, 18,
            1, 3, 3, 1, 10, 18, 1, 10, 3, 1, 2, 18, 1, 9, 1, 1, 0
        ]
    );
}
