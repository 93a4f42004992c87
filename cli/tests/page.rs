//! The page of a run, compared with a stored one. After a change that is meant: AUDALA_WRITE=1 cargo test writes it anew; look at it in a browser.

mod common;

use common::{Folder, audala};
use std::fs;

const OVEN: [&str; 2] = ["examples/texts/oven.audala", "examples/texts/oven.table"];
const STORED: &str = "tests/oven.html";

/// A page of the oven with more options.
fn page(folder: &Folder, more: &[&str]) -> (String, String) {
    let file = folder.file("page.html");
    let said = audala(&[&["trace", OVEN[0], OVEN[1], "--html", &file][..], more].concat(), b"");
    assert!(said.status != 3 && said.status != 1, "{}", said.err);
    (fs::read_to_string(file).unwrap(), said.out)
}

#[test]
fn the_page_is_the_stored_one() {
    let folder = Folder::new();
    let (made, said) = page(&folder, &["--watch", "Deck.load where on", "--also", "Oven.total", "--cap", "Oven.cap"]);
    if std::env::var_os("AUDALA_WRITE").is_some() {
        fs::write(STORED, &made).unwrap();
    }
    assert!(said.contains(": 69 turns, 2 of them reads that are overtaken\n"), "{said}");
    let stored = fs::read_to_string(STORED).unwrap();
    let differs = made.lines().zip(stored.lines()).find(|(a, b)| a != b);
    assert!(made == stored, "the page is another than {STORED}: {differs:?}");
}

#[test]
fn it_says_what_the_run_did() {
    let folder = Folder::new();
    let cap = ["--watch", "Deck.load where on", "--cap", "Oven.cap"];
    let (breaks, said) = page(&folder, &cap);
    assert!(
        said.contains("  ✗ This order breaks the cap. At turn 68 Deck 4 writes Deck 4.on: false → true."),
        "{said}"
    );
    assert!(page(&folder, &cap[2..]).1.contains("The cap is held to a sum: name one"));
    assert!(breaks.contains("This order breaks the cap.") && breaks.contains("This trips the cap."));
    // One deck after the other: the second one sees the first.
    let (keeps, _) =
        page(&folder, &[&cap[..], &["--acting", &format!("{}{}", "3,".repeat(23), ["4"; 11].join(","))]].concat());
    assert!(keeps.contains("This order keeps the cap.") && keeps.contains("<h2>Races</h2>"), "{keeps}");
    let (given, _) = page(&folder, &["--watch", "Deck.load", "--cap", "11"]);
    assert!(given.contains("The first table is over the cap."));
}

/// One file: nothing is loaded from anywhere.
#[test]
fn it_needs_no_network() {
    let folder = Folder::new();
    let (page, _) = page(&folder, &[]);
    for sign in ["http:", "https:", "src=", "<link", "@import", "url(h"] {
        assert!(!page.contains(sign), "{sign}");
    }
}

#[test]
fn a_part_of_a_run_is_drawn() {
    let folder = Folder::new();
    let (part, _) = page(&folder, &["--from", "40", "--to", "59"]);
    assert!(part.contains("Only turns 40 to 59 of 69 are drawn") && part.contains("\"first\":40,\"last\":59,"));
    assert!(part.contains("All 20 turns as a table") && part.matches("class=\"mk\"").count() == 20);
    let (none, _) = page(&folder, &["--from", "1000"]);
    assert!(none.contains("All 0 turns as a table"));
}

/// An image has no names and no statements, and still a page.
#[test]
fn images_have_pages_too() {
    let folder = Folder::new();
    let file = folder.file("page.html");
    let said = audala(&["trace", "examples/sum.program", "examples/two.table", "--html", &file, "--plain"], b"");
    assert_eq!((said.status, said.out.as_str()), (0, "number 0\nturns 24\nraces 1\n"));
    assert!(fs::read_to_string(&file).unwrap().contains("Struct0 1.p0"));
}
