//! Cases of program text: its generator's texts as cases, and its edges, each
//! with the output that an image needs, some with others.

use crate::cases::{Case, MOST_TEXT};
use text::generate;

/// The largest image of a program.
const IMAGE: usize = 32_768;

/// Texts that are accepted, and refused with 15, 16 and 17.
const ORDER: [&str; 4] =
    ["struct P(){s{}}s", "struct P(){s{}}s $", "struct P(){s{}}s s", "struct P(){s{}}t"];

/// The case of this seed and index, in turn with brackets round every binary
/// expression and with bare ones; a text past the bound of a case is cut there,
/// where it is refused for its length as before.
pub fn case(seed: u64, index: u64) -> Case {
    let generate::Case { mut text, output, .. } = generate::case(seed, index / 2, index % 2 == 1);
    text.truncate(MOST_TEXT);
    Case::Text { output, text }
}

/// Every edge of a text, and the order of the numbers: a short output gives 13
/// where the text is accepted, and no other number gives way to it.
pub fn edges() -> Vec<Case> {
    let whole = generate::edges().into_iter().map(|text| Case::Text { output: IMAGE, text });
    let short = ORDER.iter().flat_map(|text| {
        [0, 511, 512, IMAGE - 1, IMAGE + 1]
            .map(|output| Case::Text { output, text: text.as_bytes().to_vec() })
    });
    let long = Case::Text { output: 0, text: vec![b' '; MOST_TEXT] };
    whole.chain(short).chain([long]).collect()
}
