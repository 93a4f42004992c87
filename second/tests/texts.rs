//! Cases of program text: their format, the edges, and the committed ones.

use second::cases::{Case, MOST_IMAGE, MOST_TEXT};
use second::generate::texts::{case, edges};
use std::collections::BTreeMap;

fn number(case: &Case) -> u16 {
    case.answer().split(' ').nth(1).expect("a number").parse().expect("a number")
}

fn written(cases: &[Case]) -> Vec<u8> {
    let mut file = Vec::new();
    cases.iter().for_each(|case| case.write(&mut file));
    file
}

#[test]
fn a_file_of_texts_reads_as_it_was_written() {
    let cases: Vec<Case> = (0..60).map(|index| case(5, index)).collect();
    let file = written(&cases);
    let mut rest = &file[..];
    for each in &cases {
        assert_eq!(Case::read(&mut rest).expect("a whole case").as_ref(), Some(each));
    }
    assert!(Case::read(&mut rest).expect("the end").is_none());
    let over = |output: usize, text: usize| {
        let mut file = vec![3];
        file.extend_from_slice(&(output as u32).to_le_bytes());
        file.extend_from_slice(&(text as u32).to_le_bytes());
        file.resize(file.len() + text, b' ');
        Case::read(&mut &file[..]).is_err()
    };
    assert!(!over(MOST_IMAGE, MOST_TEXT));
    assert!(over(MOST_IMAGE + 1, 0));
    assert!(over(0, MOST_TEXT + 1));
}

/// P's text gives P's image, and its answer the digest of the whole output.
#[test]
fn the_answer_to_a_text() {
    let text = b"struct P(load:Int,prev:P){add{load:=(load+prev.load);}}add".to_vec();
    let answer = Case::Text { output: 32_768, text: text.clone() }.answer();
    let image = second::generate::encode::image(&second::generate::edges::P);
    let output: Vec<u8> =
        image.iter().copied().chain(std::iter::repeat(0xA5)).take(32_768).collect();
    assert_eq!(answer, format!("text 0 1 {}", second::cases::digest(output.into_iter())));
    assert!(Case::Text { output: 32_767, text }.answer().starts_with("text 13 0 "));
}

/// Each number is met at the edges and among seeded texts.
#[test]
fn every_number_is_met() {
    for (cases, least) in [(edges(), 4), ((0..1_000).map(|index| case(7, index)).collect(), 30)] {
        let mut met = BTreeMap::new();
        cases.iter().for_each(|case| *met.entry(number(case)).or_insert(0) += 1);
        assert_eq!(met.keys().copied().collect::<Vec<_>>(), [0, 13, 15, 16, 17], "{met:?}");
        assert!(met.values().all(|&count| count >= least), "{met:?}");
    }
}

/// Every case keeps to the bounds of docs/CASES.md.
#[test]
fn within_the_bounds() {
    for case in edges().into_iter().chain((0..2_000).map(|index| case(8, index))) {
        let Case::Text { output, text } = case else { panic!("no text") };
        assert!(output <= MOST_IMAGE && text.len() <= MOST_TEXT);
    }
}
