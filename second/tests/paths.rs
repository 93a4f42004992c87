//! Paths of every length, followed by a run: reads and updates reach the
//! instance that the references lead to, over null as well.

use second::generate::encode::{Record, image, table_stream};
use second::run;

/// Runs a step of struct 0 (Int, struct 0) over records (load, next) and
/// answers the loads; every instance takes its command in turn.
fn loads(statement: &[u8], records: &[(u32, u32)]) -> Vec<u32> {
    let program = [&[1, 2, 0, 16, 1, 0, 1][..], statement, &[1, 1, 0]].concat();
    let record = |&(load, next): &(u32, u32)| Record { of: 0, values: vec![load, next] };
    let table = table_stream(&records.iter().map(record).collect::<Vec<_>>());
    let mut output = vec![0; 8_704];
    let answer = run(&image(&program), &image(&table), &[0; 99], &mut output, &mut [None; 1_024]);
    assert_eq!((answer.number, answer.blocks), (0, 1));
    let load = |record: &[u8]| u32::from_le_bytes(record[1..5].try_into().unwrap());
    output[6..6 + 9 * records.len()].chunks(9).map(load).collect()
}

/// Label 1 leads to 2, 3, 4 and then to null.
const CHAIN: [(u32, u32); 4] = [(5, 2), (6, 3), (7, 4), (8, 0)];

#[test]
fn an_update_reaches_the_instance_its_path_leads_to() {
    // load := 9 by paths load, next.load, next.next.load, next.next.next.load;
    // only label 1 has its own load 5 and writes through the path.
    let when_first = [1, 32, 18, 1, 0, 19, 5, 0, 0, 0, 1];
    for (nexts, wanted) in
        [(0, [9, 6, 7, 8]), (1, [5, 9, 7, 8]), (2, [5, 6, 9, 8]), (3, [5, 6, 7, 9])]
    {
        let path = [vec![nexts as u8 + 1], vec![1; nexts], vec![0]].concat();
        let statement = [&when_first[..], &[3], &path, &[19, 9, 0, 0, 0]].concat();
        assert_eq!(loads(&statement, &CHAIN), wanted);
    }
}

#[test]
fn a_read_comes_from_the_instance_its_path_leads_to() {
    // Each load is read through the path before any instance writes its own.
    for (nexts, wanted) in
        [(0, [5, 6, 7, 8]), (1, [6, 7, 8, 0]), (2, [7, 8, 0, 0]), (3, [8, 0, 0, 0])]
    {
        let path = [vec![nexts as u8 + 1], vec![1; nexts], vec![0]].concat();
        let statement = [&[3, 1, 0, 18][..], &path].concat();
        assert_eq!(loads(&statement, &CHAIN), wanted);
    }
}
