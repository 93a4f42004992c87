//! Typical mistakes: each is refused with status 1, its number, its cause in words and its place where one is known, and nothing is printed on standard output.

mod common;

use common::audala;

/// What is wrong, the number or `form`, the place as line and column, and words of the message.
struct Mistake {
    text: &'static str,
    number: &'static str,
    place: Option<(usize, usize)>,
    says: &'static str,
}

const fn at(text: &'static str, number: &'static str, line: usize, column: usize, says: &'static str) -> Mistake {
    Mistake { text, number, place: Some((line, column)), says }
}

const fn unplaced(text: &'static str, number: &'static str, says: &'static str) -> Mistake {
    Mistake { text, number, place: None, says }
}

/// In a step of `struct Deck(load: Int, count: Nat, on: Bool, next: Deck)`, on line 3.
const STATEMENTS: [Mistake; 31] = [
    at("load := load+1;", "16", 3, 13, "load+1 is written load + +1"),
    at("load := load + 1;", "15", 3, 16, "'1' is no literal: write +1 (Int) or 1n (Nat)."),
    at("on := load == +1;", "16", 3, 13, "a comparison is =, not =="),
    at("load := +1", "16", 4, 1, "ends with a semicolon"),
    at("on := +1 < load < +5;", "16", 3, 17, "two comparisons in a row need brackets"),
    at("load := lod;", "17", 3, 9, "lod is not declared here: Deck has no such parameter, the step no such local."),
    at("load := load × load;", "15", 3, 14, "'×' is no token: outside comments only ASCII."),
    at("load := +1 # more;", "15", 3, 12, "'#' begins no token."),
    at("load := +1; /* never closed", "15", 3, 13, "this comment is not closed"),
    at("Deck(+1, 1n, true);", "17", 3, 18, "3 arguments, Deck has 4 parameters."),
    at("next := Dock(+1);", "17", 3, 9, "Dock is not declared: no struct has that name."),
    at("load := +2147483648;", "17", 3, 9, "+2147483648 is outside Int"),
    at("count := 4294967296n;", "17", 3, 10, "4294967296n is outside Nat"),
    at("Int load := +1;", "17", 3, 5, "load is declared twice: it is a parameter of Deck."),
    at("Int x := +1; Nat x := 1n;", "17", 3, 18, "x is declared twice in this step."),
    at("load := next.lod;", "17", 3, 14, "next refers to a Deck, which has no parameter lod."),
    at("load := load.next;", "17", 3, 14, "load is Int and no reference: it has no next."),
    at("load := next.next.next.next.load;", "17", 3, 29, "a path has at most 4 variables."),
    at("if on { load := +1; }", "16", 3, 7, "the grammar does not derive"),
    at("if on then { Int x := +1; } load := x;", "17", 3, 37, "x is not alive here"),
    at("String x := +1;", "16", 3, 1, "the grammar does not derive"),
    at("load := count;", "8", 3, 9, "load is Int, the value is Nat."),
    at("next.on := +1;", "8", 3, 12, "next.on is Bool, the value is Int."),
    at("Bool x := next;", "8", 3, 11, "x is Bool, the value is Deck."),
    at("Deck(+1, +1, true, this);", "8", 3, 10, "count of Deck is Nat, the value is Int."),
    at("load := load + count;", "8", 3, 14, "+ takes two Int or two Nat, and these are Int and Nat."),
    at("on := on && load;", "8", 3, 10, "&& takes two Bool, and these are Bool and Int."),
    at("on := next = null Int;", "8", 3, 12, "= takes two of one type, and these are Deck and Int."),
    at("on := !load;", "8", 3, 7, "! takes a Bool, and this is Int."),
    at("if load then { load := +1; }", "8", 3, 4, "an if takes a Bool, and this is Int."),
    at("on := !!!!!!!!!!!!!!!!on;", "5", 3, 7, "this expression nests 17 deep; 16 is the most."),
];

const TEXTS: [Mistake; 10] = [
    at("struct A(x: Int) { s { } }\n", "16", 2, 1, "Reading stopped here"),
    at("struct A(x: Int) { s { } }\nt", "17", 2, 1, "t is not declared: no struct has a step of that name."),
    at("struct A(x: Int) { s { } }\nB.s", "17", 2, 1, "B is not declared: no struct has that name."),
    at("", "16", 1, 1, "the grammar does not derive"),
    at("struct A(x: Int) { s { } }\nstruct B() { }\nB.s", "7", 3, 3, "B has no step s."),
    at("struct A(x: Int) { s { }\n s { } }\ns", "7", 2, 2, "A has a step s already."),
    at("struct A(x: Int, x: Nat) { s { } }\ns", "17", 1, 18, "parameter x of A is declared twice."),
    at("struct A(x: Deck) { s { } }\ns", "17", 1, 13, "Deck is not a type: no struct of that name is declared."),
    at("struct A(x: Int) { s { } }\nstruct A() { }\ns", "17", 2, 8, "struct A is declared twice."),
    at(
        "struct A() { s { } }\nFix(Fix(Fix(Fix(Fix(Fix(Fix(Fix(Fix(s)))))))))",
        "5",
        2,
        33,
        "Fixes nest at most 8 deep.",
    ),
];

/// Tables of examples/texts/oven.audala: `Oven(total: Int, cap: Int)`, `Deck(oven: Oven, load: Int, on: Bool)`.
const TABLES: [Mistake; 11] = [
    at("2 0 0 ten\n", "form", 1, 7, "this is not a number"),
    at("2 0 0 10\n4 1 2 6 0\n", "form", 2, 1, "label 3 is due here"),
    at("2 0 0 10\n3 1 2 6\n", "form", 2, 7, "Deck has 3 parameters, and here are 2 values"),
    at("2 0 0 10 7\n", "form", 1, 10, "Oven has 2 parameters, and here are 3 values"),
    at("2 5 0 10\n", "form", 1, 3, "there is no struct 5"),
    at("2 0 0 2147483648\n", "form", 1, 7, "cap: 2147483648 is not a value of Int"),
    at("2 0 0 4294967296\n", "form", 1, 7, "over 4294967295"),
    at("2 0 0 10\n3 1 -2 6 0\n", "form", 2, 5, "oven: -2 is not a value of Oven"),
    at("2 0 0 10\n3 1 2 6 2\n", "12", 2, 9, "Label 3, on: 2 is neither 0 nor 1."),
    at("2 0 0 10\n3 1 9 6 0\n", "12", 2, 5, "Label 3, oven: 9 is not the label of a Oven."),
    at("2 0 0 10\n3 1 3 6 0\n", "12", 2, 5, "Label 3, oven: 3 is not the label of a Oven."),
];

/// Holds a call to what is written of a mistake, in words and in lines for scripts.
fn held(args: &[&str], input: &[u8], mistake: &Mistake) {
    let said = audala(args, input);
    assert_eq!((said.status, said.out.as_str()), (1, ""), "{}", mistake.text);
    assert!(said.err.contains(mistake.says), "{}: {}", mistake.text, said.err);
    let number = if mistake.number == "form" {
        ": refused: ".to_string()
    } else {
        format!(": refused with {}: ", mistake.number)
    };
    assert!(said.err.contains(&number), "{}: {}", mistake.text, said.err);
    let plain = audala(&[args, &["--plain"]].concat(), input);
    let lines: Vec<&str> = plain.err.lines().collect();
    assert_eq!((plain.status, lines[0]), (1, format!("refused {}", mistake.number).as_str()), "{}", mistake.text);
    match mistake.place {
        Some((line, column)) => {
            assert!(plain.err.ends_with(&format!("line {line}\ncolumn {column}\n")), "{}: {}", mistake.text, plain.err);
            let mark = said.err.lines().position(|line| line.trim() == "^").expect("a mark");
            let marked = said.err.lines().nth(mark).map(|line| line.chars().count());
            assert_eq!(marked, Some(4 + column), "{}: {}", mistake.text, said.err);
        }
        None => assert!(!said.err.contains('^') && !plain.err.contains("\nline "), "{}: {}", mistake.text, said.err),
    }
}

#[test]
fn in_statements() {
    for mistake in &STATEMENTS {
        let text = format!(
            "struct Deck(load: Int, count: Nat, on: Bool, next: Deck) {{\n  act {{\n{}\n}}\n}}\nact\n",
            mistake.text
        );
        held(&["check", "-"], text.as_bytes(), mistake);
    }
}

#[test]
fn in_texts() {
    for mistake in &TEXTS {
        held(&["check", "-"], mistake.text.as_bytes(), mistake);
    }
}

#[test]
fn in_tables() {
    for mistake in &TABLES {
        held(&["run", "examples/texts/oven.audala", "-"], mistake.text.as_bytes(), mistake);
    }
}

/// A struct of eight parameters, the first three of its own type, with these steps on line 2, and what follows from line 4 on.
fn text(steps: &str, rest: &str) -> String {
    format!("struct A(a: A, b: A, c: A, x: Int, y: Int, z: Int, v: Int, w: Int) {{\n{steps}\n}}\n{rest}")
}

/// Holds a text to its number, place and cause; long lines are cut round the mark, which is not looked at.
fn placed(text: &str, number: u32, (line, column): (usize, usize), says: &str) {
    let said = audala(&["check", "-"], text.as_bytes());
    let wanted =
        [format!("refused with {number}: "), format!("  line {line}, column {column}:\n"), format!("  {says}\n")];
    assert_eq!((said.status, said.out.as_str()), (1, ""), "{text}");
    wanted.iter().for_each(|part| assert!(said.err.contains(part), "{part}: {}", said.err));
}

#[test]
fn limits_of_steps() {
    let step = |body: &str| text(&format!("s {{ {body} }}"), "s");
    placed(&step(&"x := +1; ".repeat(22)), 6, (2, 1), "step s has 66 commands; 64 is the most.");
    placed(&step(&"x := +1; ".repeat(33)), 17, (2, 293), "a step or an if has at most 32 statements.");
    let locals: String = (0..9).map(|i| format!("Int l{i} := +1; ")).collect();
    placed(&step(&locals), 17, (2, 121), "a step has at most 8 locals.");
    let ifs = ["if true then {".repeat(9), "}".repeat(9)].concat();
    placed(&step(&ifs), 5, (2, 117), "ifs nest at most 8 deep.");
    let made = (0..6).fold("null A".to_string(), |inner, _| format!("A(this, this, {inner}, +1, +1, +1, +1, +1)"));
    placed(&step(&format!("a := {made};")), 6, (2, 10), "this expression takes a stack of 18; 16 is the most.");
    let steps: String = (0..8).map(|i| format!("s{i} {{ {}}} ", "x := +1; ".repeat(21))).collect();
    let structs: String = (0..3).map(|k| format!("struct B{k}(x: Int) {{ {steps}}}\n")).collect();
    let says = "with step s0 there are 1071 commands; a program has at most 1024.";
    placed(&text("", &format!("{structs}s0")), 6, (6, 21), says);
}

#[test]
fn limits_of_schedules_and_declarations() {
    let row = |items: usize| vec!["s"; items].join(" < ");
    placed(&text("s { }", &row(33)), 17, (4, 129), "a row of the schedule has at most 32 items.");
    let rows = format!("Fix({}) < Fix({}) < Fix(s)", row(31), row(31));
    placed(&text("s { }", &rows), 6, (4, 259), "a schedule has at most 64 items in all, each Fix being one.");
    let nine: Vec<String> = (0..9).map(|i| format!("p{i}: Int")).collect();
    let nine = format!("struct A({}) {{ s {{ }} }}\ns", nine.join(", "));
    placed(&nine, 17, (1, 82), "a struct has at most 8 parameters.");
    let steps: String = (0..9).map(|i| format!("s{i} {{ }} ")).collect();
    placed(&text(&steps, "s0"), 17, (2, 57), "a struct has at most 8 steps.");
    let structs: String = (0..17).map(|i| format!("struct A{i}() {{ s {{ }} }}\n")).collect();
    placed(&format!("{structs}s"), 17, (17, 8), "a program has at most 16 structs.");
}

/// Where the walk is lost or finds nothing, nothing is said of a place.
#[test]
fn nothing_is_said_where_nothing_is_found() {
    let deep = format!("s {{ x := {}x{}; y := a; }}", "(".repeat(2_000), ")".repeat(2_000));
    let lost = Mistake { text: "2,000 brackets", number: "8", place: None, says: "The checker gives no place." };
    held(&["check", "-"], text(&deep, "s").as_bytes(), &lost);
}

#[test]
fn a_text_that_is_too_long() {
    let text = "/* */ ".repeat(11_000);
    let said = audala(&["check", "-", "--plain"], text.as_bytes());
    assert_eq!((said.status, said.err.lines().next()), (1, Some("refused 15")));
    assert!(said.err.ends_with("line 1\ncolumn 65537\n"), "{}", said.err);
}

#[test]
fn images_cut_and_damaged() {
    let image = std::fs::read("../examples/sum.program").unwrap();
    let table = std::fs::read("../examples/two.table").unwrap();
    let mut damaged = image.clone();
    damaged[9] ^= 1;
    held(&["check", "-"], &damaged, &unplaced("a changed byte", "2", "was damaged on its way"));
    damaged[0] ^= 1;
    held(&["check", "-"], &damaged, &unplaced("a changed first byte", "2", "was damaged on its way"));
    held(&["check", "-"], &image[..500], &unplaced("a cut image", "1", "send whole blocks"));
    held(&["check", "examples/sum.audala", "-"], &table[..500], &unplaced("a cut table", "9", "send whole blocks"));
    let mut damaged = table.clone();
    damaged[9] ^= 1;
    held(&["check", "examples/sum.audala", "-"], &damaged, &unplaced("a changed byte", "10", "send it again"));
    held(
        &["check", "examples/texts/sorting.audala", "-"],
        &table,
        &unplaced("another program's table", "11", "another program"),
    );
}

#[test]
fn turns_that_cannot_be_taken() {
    let run = ["run", "examples/sum.audala", "examples/two.table"];
    let many = [&run[..], &["--turns", "65537x0"]].concat();
    held(&many, b"", &unplaced("65537 turns", "14", "more than 65536 turns"));
    let acting = [&run[..], &["--acting", "1,1,1,1,1,1,1,1,1"]].concat();
    held(
        &acting,
        b"",
        &unplaced("a label too often", "form", "turn 8: label 1 holds no commands; those that do: 0, 2"),
    );
}
