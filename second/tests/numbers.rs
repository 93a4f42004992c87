//! Numbers of a check in places that the engine's own tests leave out.

use second::check;
use second::generate::encode::image;

fn number(stream: &[u8]) -> u8 {
    check(&image(stream), &mut [None; 1_024]).number
}

/// The count itself is not allowed, whatever stands behind it.
#[test]
fn no_struct_is_5() {
    for rest in [&[][..], &[1, 1, 0], &[1, 3, 1, 1, 0], &[0]] {
        assert_eq!(number(&[&[0], rest].concat()), 5);
    }
}

/// `load := null Nat`, which breaks a type, and `x8 := null Int`, a name.
const TYPE: [u8; 6] = [1, 3, 1, 0, 22, 1];
const NAME: [u8; 6] = [1, 3, 1, 8, 22, 0];

/// Over the whole program, in two steps of one struct and of two.
#[test]
fn a_name_in_one_step_comes_before_a_type_in_another() {
    for (first, other, wanted) in
        [(TYPE, TYPE, 8), (NAME, NAME, 7), (TYPE, NAME, 7), (NAME, TYPE, 7)]
    {
        let in_one = [&[1, 1, 0, 2, 4][..], &first, &[5], &other, &[1, 1, 4]].concat();
        assert_eq!(number(&in_one), wanted);
        let in_two = [&[2, 1, 0, 1, 0, 1, 4][..], &first, &[1, 4], &other, &[1, 1, 4]].concat();
        assert_eq!(number(&in_two), wanted);
    }
}
