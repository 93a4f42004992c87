//! Generated texts: the stream of the program that an undamaged text was made
//! from comes out; every image written is one the checker reads.

mod common;
use common::outcome;
use text::generate::{answer, case, digest};
use text::{read, read_bare};

#[test]
fn the_stream_of_the_program_comes_out() {
    for bare in [false, true] {
        let reader = if bare { read_bare } else { read };
        let mut compared = 0;
        for index in 0..5200 {
            let case = case(1, index, bare);
            let Some(expected) = case.stream else { continue };
            let (number, stream) = outcome(reader, &case.text);
            let shown = String::from_utf8_lossy(&case.text);
            assert_eq!(number, 0, "case {index}: {shown}");
            assert_eq!(stream, expected, "case {index}: {shown}");
            compared += 1;
        }
        assert!(compared > 2000, "{compared}");
    }
}

#[test]
fn bracketed_text_keeps_its_stream() {
    for index in 0..1500 {
        let case = case(2, index, false);
        let bracketed = outcome(read, &case.text);
        let bare = outcome(read_bare, &case.text);
        assert!(bracketed.0 == 16 || bracketed == bare, "case {index}");
    }
}

/// Images of the reader's are well formed: only nesting, sizes, steps and
/// types are left to refuse.
#[test]
fn images_for_the_checker() {
    let mut numbers = [0; 9];
    for index in 0..1500 {
        let case = case(3, index, true);
        if outcome(read_bare, &case.text).0 == 0 {
            let number = common::checked(read_bare, &case.text);
            assert!([0, 5, 6, 7, 8].contains(&number), "case {index}: {number}");
            numbers[usize::from(number)] += 1;
        }
    }
    assert!([0, 5, 6, 7, 8].iter().all(|&number| numbers[number] > 0), "{numbers:?}");
}

#[test]
fn all_numbers_are_met() {
    for bare in [false, true] {
        let mut met = [0; 18];
        for index in 0..1200 {
            let case = case(4, index, bare);
            met[usize::from(answer(&case.text, case.output, bare).0.number)] += 1;
        }
        assert!([0, 13, 15, 16, 17].iter().all(|&number| met[number] > 30), "{met:?}");
    }
}

#[test]
fn digests() {
    assert_eq!(digest(b""), 0xcbf2_9ce4_8422_2325);
    assert_eq!(digest(b"a"), 0xaf63_dc4c_8601_ec8c);
    assert_eq!(digest(b"foobar"), 0x8594_4171_f739_67e8);
}

/// Any bytes: no panic, and one of the five numbers.
#[test]
fn any_bytes() {
    let mut state = 5u64;
    for length in 0..3000usize {
        let bytes: Vec<u8> = (0..length % 97)
            .map(|_| {
                state = state.wrapping_mul(6_364_136_223_846_793_005).wrapping_add(1);
                let byte = (state >> 56) as u8;
                if length % 2 == 0 { byte } else { b"(){}sx:=;!+<. 1n/*"[usize::from(byte % 18)] }
            })
            .collect();
        assert!([15, 16, 17, 0].contains(&outcome(read, &bytes).0));
        assert!([15, 16, 17, 0].contains(&outcome(read_bare, &bytes).0));
    }
}
