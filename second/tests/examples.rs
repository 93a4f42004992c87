//! Programs as texts with their tables and runs, as cases and as the engine
//! runs them.

use second::cases::Case;
use second::examples::Example;
use second::generate::edges::P;
use second::generate::encode::image;

const TEXT: &[u8] = b"struct Deck(load: Int, prev: Deck) { add { load := load + prev.load; } } add";
const TABLE: &str = "1 0 5 2\n2 0 7 1\n";
/// 01's bench rows, and one turn too few.
const RUNS: &str = "turns 24x0
gives 0 24
1 0 12 2
2 0 12 1

turns 23x0
gives 33 23
1 0 12 2
2 0 7 1

turns 1x254,254,254,254,254,254,254,254,3,3,3,3,3,3,3,3,200,200,200,200,200,200,200,200
gives 0 24
1 0 17 2
2 0 12 1

";

fn example(runs: &str) -> Example {
    Example::read(TEXT, TABLE, runs).unwrap_or_else(|refused| panic!("{refused}"))
}

#[test]
fn the_runs_are_those_of_the_bench_rows() {
    assert_eq!(example(RUNS).runs().as_deref(), Ok(RUNS));
}

/// Nothing but the lists of turns is taken from the file of runs.
#[test]
fn what_a_file_of_runs_says_is_not_believed() {
    let otherwise = RUNS.replace("gives 0 24", "gives 0 25").replace("2 0 7 1", "");
    assert_eq!(example(&otherwise).runs().as_deref(), Ok(RUNS));
}

#[test]
fn a_check_and_a_run_for_each_list() {
    let cases = example("turns 2x0,1,2\nturns 3x255\n").cases();
    let [Case::Check { places, program }, runs @ ..] = &cases[..] else { panic!("{cases:?}") };
    assert_eq!((*places, program), (1_024, &image(&P)));
    let table = image(&[2, 0, 0, 5, 0, 0, 0, 2, 0, 0, 0, 0, 7, 0, 0, 0, 1, 0, 0, 0]);
    let run = |turns: &[u8]| Case::Run {
        places: 1_024,
        output: 8_704,
        program: image(&P),
        table: table.clone(),
        turns: turns.to_vec(),
    };
    assert_eq!(runs, [run(&[0, 1, 2, 0, 1, 2]), run(&[255, 255, 255])]);
}

#[test]
fn an_example_that_is_none() {
    for (text, table, runs) in [
        (&b"struct"[..], TABLE, RUNS),
        (TEXT, "2 0 5 2\n", RUNS),
        (TEXT, TABLE, ""),
        (TEXT, TABLE, "turns 0,1\n"),
        (TEXT, TABLE, "turns 2x256\n"),
        (TEXT, TABLE, "turns 2x\n"),
        (TEXT, TABLE, "turns x0\n"),
    ] {
        assert!(Example::read(text, table, runs).is_err());
    }
    // a list that is refused (14) leaves no table
    assert!(example("turns 65537x0\n").runs().is_err());
    assert!(example("turns 65536x0\n").runs().is_ok());
}
