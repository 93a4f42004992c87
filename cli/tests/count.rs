//! `audala count` (02 §14): what is printed, and each refusal.

mod common;

use common::{Folder, audala};

const OVEN: [&str; 2] = ["examples/texts/oven.audala", "examples/texts/oven.table"];

/// A step of three commands, one of six, and one that divides by the count.
const DECK: &[u8] =
    b"struct Deck(on: Bool, count: Int) {\n  start { on := true; }\n  twice { on := true; on := false; }\n\
    \x20 share { count := +1 / count; }\n}\nstart\n";

/// The program and a table of so many decks.
fn decks(folder: &Folder, count: usize) -> (String, String) {
    let rows: String = (1..=count).map(|label| format!("{label} 0 0 2\n")).collect();
    (folder.write("deck.audala", DECK), folder.write("deck.table", rows.as_bytes()))
}

/// What a question about the decks prints, with its status.
fn asked(count: usize, question: [&str; 3], plain: bool) -> (i32, String) {
    let folder = Folder::new();
    let (program, table) = decks(&folder, count);
    let [step, label, parameter] = question;
    let mut args = vec!["count", &program, &table, step, label, parameter];
    if plain {
        args.push("--plain");
    }
    let said = audala(&args, b"");
    assert!(said.out.is_empty() != said.err.is_empty(), "{} {}", said.out, said.err);
    (said.status, said.out + &said.err)
}

#[test]
fn orders_are_counted() {
    // The null instance takes three commands too: (3n + 3)! / (3!)^(n + 1).
    for (count, orders) in [(0, 1), (1, 20), (2, 1_680), (3, 369_600)] {
        let label = if count == 0 { "0" } else { "1" };
        let (truths, falsehoods) = if count == 0 { (0, orders) } else { (orders, 0) };
        let gives = format!("number 0\ntrue {truths}\nfalse {falsehoods}\nstopped 0\n");
        assert_eq!(asked(count, ["start", label, "on"], true), (0, gives));
    }
    assert_eq!(asked(1, ["twice", "1", "on"], true), (0, "number 0\ntrue 0\nfalse 924\nstopped 0\n".to_string()));
    // The null instance divides by 0 with its fourth command; the deck has taken 0 to 6 before that: 3 over 3, 4 over 3 and so on.
    assert_eq!(asked(1, ["share", "1", "on"], true), (0, "number 0\ntrue 0\nfalse 0\nstopped 210\n".to_string()));
    let named = "Step start has 20 orders on this table:\n  20 with Deck 1.on true at the end\n   0 with Deck 1.on false at the end\n   \
        0 that stop with 34 or 35\n";
    assert_eq!(asked(1, ["start", "1", "on"], false), (0, named.to_string()));
}

#[test]
fn names_and_numbers_ask_the_same() {
    let folder = Folder::new();
    let (program, table) = decks(&folder, 1);
    let image = folder.file("deck.program");
    assert_eq!(audala(&["text", &program, "-o", &image], b"").status, 0);
    for (program, step, parameter) in [(&program, "twice", "on"), (&program, "1", "0"), (&image, "1", "0")] {
        let said = audala(&["count", "--plain", program, &table, step, "1", parameter], b"");
        assert_eq!((said.status, said.out.as_str()), (0, "number 0\ntrue 0\nfalse 924\nstopped 0\n"));
    }
    for (step, parameter) in [("twice", "0"), ("1", "on")] {
        let said = audala(&["count", &image, &table, step, "1", parameter], b"");
        assert!(said.status == 3 && said.err.contains("an image has no names"), "{}", said.err);
    }
}

#[test]
fn refusals_are_in_the_library_s_order() {
    for (question, number, cause, hint) in [
        (["stop", "9", "none"], 7, "no struct has this step", "Steps: start, twice, share."),
        (["3", "1", "on"], 7, "no struct has this step", "Steps: start, twice, share."),
        (["start", "5", "on"], 21, "the label or the parameter is not there", "Labels are 0 to 4."),
        (["start", "1", "off"], 21, "the label or the parameter is not there", "Deck 1 has the parameters on, count."),
        (["twice", "1", "count"], 8, "the parameter is no Bool", "Of Deck 1 these are: on."),
        (
            ["start", "1", "on"],
            24,
            "more than 12 commands over all instances, null ones included",
            "It has 15 here, over 5 instances.\n  With at most 12 all orders agree, so that the answer would be all or none.",
        ),
    ] {
        let (status, said) = asked(4, question, false);
        let [step, label, parameter] = question;
        let about = match number {
            7 | 24 => format!("step {step}"),
            _ => format!("label {label}, parameter {parameter}"),
        };
        assert_eq!((status, said), (1, format!("{about}: refused with {number}: {cause}\n  {hint}\n")));
        let (status, said) = asked(4, question, true);
        assert_eq!((status, said), (1, format!("refused {number}\nfile {about}\ncause {cause}\n")));
    }
    let oven = audala(&["count", OVEN[0], OVEN[1], "switch", "3", "on"], b"");
    assert!(oven.status == 1 && oven.err.starts_with("step switch: refused with 24: "), "{}", oven.err);
    let oven = audala(&["count", OVEN[0], OVEN[1], "switch", "2", "on"], b"");
    assert!(oven.status == 1 && oven.err.ends_with("Oven 2 has the parameters total, cap.\n"), "{}", oven.err);
}

#[test]
fn misuse_is_told() {
    for args in [
        &["count"][..],
        &["count", OVEN[0], OVEN[1], "switch", "3"],
        &["count", OVEN[0], OVEN[1], "switch", "3", "on", "more"],
        &["count", OVEN[0], OVEN[1], "switch", "Deck", "on"],
        &["count", OVEN[0], OVEN[1], "switch", "3", "on", "--turns", "0"],
    ] {
        let said = audala(args, b"");
        assert!(said.status == 3 && said.err.ends_with("See: audala count --help\n"), "{args:?}: {}", said.err);
    }
    let help = audala(&["count", "--help"], b"");
    assert!(help.status == 0 && help.out.starts_with("audala count PROGRAM TABLE STEP LABEL PARAMETER\n"));
}
