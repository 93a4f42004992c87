//! Texts at the edge of each count, number and length, and one beyond; and
//! small texts about single rules. Tokens are parted by blanks here.

use super::random::Random;

/// A number at, one below or one above a limit.
fn near(random: &mut Random, limit: usize) -> usize {
    limit - 1 + random.below(3)
}

fn repeated(count: usize, part: impl Fn(usize) -> String) -> String {
    (0..count).map(part).collect()
}

fn listed(count: usize, separator: &str, part: impl Fn(usize) -> String) -> String {
    (0..count).map(part).collect::<Vec<_>>().join(separator)
}

/// A program of one struct with these statements in its only step.
fn with_statements(statements: &str) -> String {
    format!("struct P ( b : Bool , x : Int , p : P ) {{ s {{ {statements} }} }} s ")
}

fn with_schedule(schedule: &str) -> String {
    format!("struct P ( ) {{ s {{ }} }} {schedule} ")
}

fn structs(random: &mut Random) -> String {
    let count = near(random, 16);
    let first = random.below(2);
    let step = |index| if index == 0 { "s { }" } else { "" };
    let part = |index| format!("struct S{} ( ) {{ {} }} ", index + first, step(index));
    repeated(count, part) + "s "
}

fn parameters(random: &mut Random) -> String {
    let count = near(random, 8);
    let list = listed(count, " , ", |index| format!("p{index} : Int"));
    format!("struct P ( {list} ) {{ s {{ }} }} s ")
}

fn steps(random: &mut Random) -> String {
    let count = near(random, 8);
    let names = 1 + random.below(9);
    let list = repeated(count, |index| format!("s{} {{ }} ", index % names));
    format!("struct P ( ) {{ {list} }} s0 ")
}

fn step_names(random: &mut Random) -> String {
    let count = near(random, 32);
    let last = count - 1;
    let of_struct = |index: usize| {
        let first = 7 * index;
        let list = repeated(7.min(count.saturating_sub(first)), |name| {
            format!("s{} {{ }} ", first + name)
        });
        format!("struct S{index} ( ) {{ {list} }} ")
    };
    repeated(5, of_struct) + &format!("s0 < s{last} ")
}

fn statements(random: &mut Random) -> String {
    let list = "x := +1 ; ".repeat(near(random, 32));
    match random.below(3) {
        0 => with_statements(&list),
        1 => with_statements(&format!("if b then {{ {list} }}")),
        _ => with_statements(&format!("if b then {{ if b then {{ {list} }} x := x ; }}")),
    }
}

fn path(random: &mut Random) -> String {
    let path = "p . ".repeat(near(random, 4) - 1) + "p";
    match random.below(2) {
        0 => with_statements(&format!("{path} := this ;")),
        _ => with_statements(&format!("P q := {path} ;")),
    }
}

fn locals(random: &mut Random) -> String {
    let within = random.one_in(2);
    let part = |index| {
        let declaration = format!("Int l{index} := +{index} ; ");
        if within && index % 2 == 0 {
            format!("if b then {{ {declaration} }} ")
        } else {
            declaration
        }
    };
    with_statements(&repeated(near(random, 8), part))
}

fn items(random: &mut Random) -> String {
    let list = listed(near(random, 32), " < ", |_| "s".to_string());
    match random.below(3) {
        0 => with_schedule(&list),
        1 => with_schedule(&format!("Fix ( {list} ) < s")),
        _ => with_schedule(&format!("s < Fix ( Fix ( {list} ) )")),
    }
}

fn arguments(random: &mut Random) -> String {
    let parameters = random.below(9);
    let given = (parameters + random.below(3)).saturating_sub(1);
    let declared = listed(parameters, " , ", |index| format!("p{index} : Int"));
    let list = listed(given, " , ", |index| format!("+{index}"));
    let body = if random.one_in(2) { "" } else { "Q q := " };
    format!("struct Q ( {declared} ) {{ s {{ {body} Q ( {list} ) ; }} }} s ")
}

fn literal(random: &mut Random) -> String {
    const LITERALS: [&str; 18] = [
        "+2147483647",
        "+2147483648",
        "-2147483648",
        "-2147483649",
        "4294967295n",
        "4294967296n",
        "+0",
        "-0",
        "0n",
        "-00000000002147483648",
        "+00000000002147483648",
        "00004294967295n",
        "+99999999999999999999999",
        "-18446744073709551616",
        "18446744073709551616n",
        "+18446744073709551617",
        "12",
        "- 1",
    ];
    with_statements(&format!("x := {} ;", random.pick(&LITERALS)))
}

fn nesting(random: &mut Random) -> String {
    let deep = if random.one_in(6) { 1000 } else { 0 };
    let depth = near(random, 8) + deep;
    let levels = near(random, 16) + deep;
    match random.below(6) {
        0 => with_statements(&("if b then { ".repeat(depth) + &"} ".repeat(depth))),
        1 => with_schedule(&("Fix ( ".repeat(depth) + "s " + &") ".repeat(depth))),
        2 => with_statements(&format!("b := {} b ;", "! ".repeat(levels - 1))),
        3 => with_statements(&format!("x := {} x {} ;", "( ".repeat(levels), ") ".repeat(levels))),
        4 => {
            let sums = "( ".repeat(levels - 1) + "x " + &"+ x ) ".repeat(levels - 1);
            with_statements(&format!("x := {sums} ;"))
        }
        _ => {
            let open = "struct Q ( q : Q ) { s { Q ( ".to_string() + &"Q ( ".repeat(levels - 1);
            open + "this " + &") ".repeat(levels) + "; } } s "
        }
    }
}

/// A stream of 32,256 bytes or near to it; those of the frame are 14. The text
/// has no more blanks than it needs.
pub fn stream_bytes(random: &mut Random) -> String {
    let inner = near(random, 32_256) - 14;
    let text = if random.one_in(2) {
        with_statements(&format!("b := {} b ;", "! ".repeat(inner - 3)))
    } else {
        let (sums, nots) = ((inner - 3) / 4, (inner - 3) % 4);
        let open = "( ".repeat(sums) + &"! ".repeat(nots);
        with_statements(&format!("x := {open} x {} ;", "+ x ) ".repeat(sums)))
    };
    text.replace(' ', "").replace("struct", "struct ")
}

/// Texts about single rules: tokens, derivations, names alive or twice, and
/// what is left to the checker.
pub const RULES: [&str; 54] = [
    "",
    "s",
    "struct P ( ) { }",
    "struct P ( ) { } s",
    "struct P ( ) { s { } } t",
    "struct P ( ) { s { } } P . s",
    "struct P ( ) { s { } } P . t",
    "struct P ( ) { s { } } Q . s",
    "struct P ( ) { s { } } struct Q ( ) { t { } } Q . s",
    "struct P ( ) { s { } s { } } s",
    "struct P ( ) { s { } } struct P ( ) { } s",
    "struct P ( a : Int , a : Nat ) { s { } } s",
    "struct P ( a : Int , ) { s { } } s",
    "struct P ( a : Q ) { s { } } s",
    "struct P ( a : String ) { s { } } s",
    "struct P ( a : Q ) { s { a := null Q ; } } struct Q ( ) { } s",
    "struct P ( a : Int ) { s { Int a := +1 ; } } s",
    "struct P ( ) { s { Int a := +1 ; } } struct Q ( a : Int ) { } s",
    "struct P ( ) { s { Int a := +1 ; Nat a := 1n ; } } s",
    "struct P ( ) { s { Int a := +1 ; } t { Nat a := 1n ; } } s",
    "struct P ( ) { s { if true then { Int a := +1 ; } if true then { Int a := +1 ; } } } s",
    "struct P ( ) { s { if true then { Int a := +1 ; } Int a := +1 ; } } s",
    "struct P ( ) { s { if true then { Int a := +1 ; } a := +1 ; } } s",
    "struct P ( ) { s { if true then { Int a := +1 ; a := a ; } } } s",
    "struct P ( ) { s { Int a := a ; } } s",
    "struct P ( ) { s { a := +1 ; Int a := +1 ; } } s",
    "struct P ( ) { s { Int a := +1 ; } t { a := +1 ; } } s",
    "struct P ( ) { s { Int a := +1 ; } t { Int b := b ; } } s",
    "struct P ( ) { s { if true then { Int a := +1 ; } Int b := +1 ; Int c := b ; } } s",
    "struct P ( ) { s { Int a := +1 ; if true then { a := a ; Int b := a ; } a := a ; } } s",
    "struct P ( x : Int , p : P ) { s { x := p . x ; } } s",
    "struct P ( x : Int , p : P ) { s { x := x . p ; } } s",
    "struct P ( x : Int , p : P ) { s { x := p . y ; } } s",
    "struct P ( x : Int , p : P ) { s { P q := p ; q . p . x := q . x ; } } s",
    "struct P ( x : Int , p : P ) { s { P q := p ; x := p . q ; } } s",
    "struct P ( x : Int ) { s { this . x := +1 ; } } s",
    "struct P ( x : P ) { s { x := null ; } } s",
    "struct P ( x : P ) { s { x := null String ; } } s",
    "struct s ( s : s ) { s { s . s := s ( s ) ; s ( null s ) ; } } s . s < s",
    "struct P ( b : Bool ) { s { b := ( b = b ) = b ; } } s",
    "struct P ( b : Bool ) { s { b := ( b = b = b ) ; } } s",
    "struct P ( b : Bool ) { s { b := ( ! b && ! ! b ) ; } } s",
    "struct P ( b : Bool ) { s { b := ! b && b || b ; } } s",
    "struct P ( b : Bool ) { s { b := b < b && b < b ; } } s",
    "struct P ( b : Bool ) { s { b := b < b + b < b ; } } s",
    "struct P ( b : Bool ) { s { b := b == b ; } } s",
    "struct P ( x : Int ) { s { x := ( x -1 ) ; } } s",
    "struct P ( x : Int ) { s { x := ( x - +1 ) ; } } s",
    "struct P ( x : Int ) { s { ( x ) := x ; } } s",
    "struct P ( x : Int ) { s { x := x } } s",
    "struct P ( x : Int ) { s { x := x ; ; } } s",
    "struct P ( x : Int ) { s { } } s ;",
    "struct P ( x : Int ) { s { } } ( s )",
    "struct P ( x : Int ) { s { } } Fix ( )",
];

/// Bare expressions (02 §2).
pub const BARE: [&str; 18] = [
    "struct P ( b : Bool , x : Int ) { s { b := x + x * x < x - x % x && ! b || b ; } } s",
    "struct P ( b : Bool , x : Int ) { s { b := b || ! b && x = x / x + x ; } } s",
    "struct P ( b : Bool , x : Int ) { s { x := x - x - x + x ; x := x / x * x % x ; } } s",
    "struct P ( b : Bool , x : Int ) { s { b := b || b || b ; b := b && b && b ; } } s",
    "struct P ( b : Bool , x : Int ) { s { x := ( x + x ) * ( x - x ) ; } } s",
    "struct P ( b : Bool , x : Int ) { s { b := ! b = b ; b := ! ( b = b ) ; } } s",
    "struct P ( b : Bool , x : Int ) { s { b := x < x < x ; } } s",
    "struct P ( b : Bool , x : Int ) { s { b := x = x != x ; } } s",
    "struct P ( b : Bool , x : Int ) { s { b := ( x >= x <= x ) ; } } s",
    "struct P ( b : Bool , x : Int ) { s { b := ( x > x ) = b ; b := b = ( x > x ) ; } } s",
    "struct P ( b : Bool , x : Int ) { s { b := x < x && x < x || x < x ; } } s",
    "struct P ( b : Bool , x : Int ) { s { if x < x + x then { P ( b && b , x * x ) ; } } } s",
    "struct P ( b : Bool , x : Int ) { s { P ( x < x , x < x ) ; P ( x < x < x , x ) ; } } s",
    "struct P ( b : Bool , x : Int ) { s { b := P ( b || b , x + x ) = P ( b , x ) && b ; } } s",
    "struct P ( b : Bool , x : Int ) { s { x := x + ; } } s",
    "struct P ( b : Bool , x : Int ) { s { x := * x ; } } s",
    "struct P ( b : Bool , x : Int ) { s { x := x * * x ; } } s",
    "struct P ( b : Bool , x : Int ) { s { x := x ! x ; } } s",
];

/// Operators in a row, near as many as the stream holds; the right ones are
/// tighter or not.
pub fn row(random: &mut Random) -> String {
    let operators = near(random, 8060);
    let pair = random.pick(&["b+b+", "b*b+", "b+b*", "b||b&&"]);
    let row = pair.repeat(operators / 2) + if operators % 2 == 1 { "b-" } else { "" };
    format!("struct P(b:Bool,p:P){{s{{b:={row}b;}}}}s")
}

/// Texts whose bytes matter, comments above all.
pub const RAW: [&str; 19] = [
    "struct P(){s{}}s/**/",
    "struct P(){s{}}s/*/",
    "struct P(){s{}}s/***/",
    "struct P(){s{}}s/*/*/",
    "struct P(){s{}}s/*/**/",
    "struct P(){s{}}s/*/*a*/*/",
    "struct P(){s{}}s/*",
    "struct P(){s{}}s*/",
    "struct P(){s{}}s//",
    "struct/**/P(){s{}}s",
    "struct P(x:Int){s{x:=(x/*x*//x);}}s",
    "struct P(x:Nat){s{x:=(x/**/*1/**/n);}}s",
    "struct P(x:Nat){s{x:=(1n*2n);if(1n=2n)then{}}}s",
    "struct P(x:Nat){s{if 1nthen{}}}s",
    "struct P(x:Nat){s{x:=(x-1n);}}s",
    "struct P(x:Int){s{x:=(x-+1);x:=(-1--1);}}s",
    "struct P(){_s{}}_s",
    "struct P(){s{}}\x0cs",
    "struct P(){s{}}s\u{e9}",
];

/// Text whose length is near the greatest, by blanks or one comment.
pub fn padded(random: &mut Random, text: String) -> String {
    let room = near(random, 65_536) - text.len();
    if random.one_in(2) {
        text + &" ".repeat(room)
    } else {
        text + "/*" + &"*".repeat(room - 4) + "*/"
    }
}

pub const COUNTED: [fn(&mut Random) -> String; 11] = [
    structs, parameters, steps, step_names, statements, path, locals, items, arguments, literal,
    nesting,
];

/// A text to be written out with any gaps.
pub fn tokens(random: &mut Random) -> Vec<Vec<u8>> {
    let text = if random.one_in(2) {
        random.pick(&COUNTED)(random)
    } else {
        random.pick(&RULES).to_string()
    };
    text.split(' ').filter(|token| !token.is_empty()).map(|token| token.into()).collect()
}

/// A text to be taken as it stands; seldom a long one.
pub fn raw(random: &mut Random) -> Vec<u8> {
    let text = match random.below(12) {
        0 => stream_bytes(random),
        1 => padded(random, "struct P(){s{}}s".to_string()),
        2 => padded(random, with_statements("x := ( x + p . x ) ;")),
        _ => random.pick(&RAW).to_string(),
    };
    text.into_bytes()
}
