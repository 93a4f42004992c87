//! Every row of 01's "Bench rows", starred or not, as 02 §5 counts turns.
mod common;
use common::*;

fn loads(rows: &[(i64, i64)]) -> Vec<u8> {
    let records: Vec<[i64; 2]> = rows.iter().map(|&(load, prev)| [load, prev]).collect();
    let records: Vec<(u8, &[i64])> = records.iter().map(|record| (0, &record[..])).collect();
    table(&records)
}

#[test]
fn p_is_accepted_and_listed() {
    accepted(&P, 1, 1, 2, P_COMMANDS);
    let expected = "audala 1 1 8 2\n0 0 0 push this\n0 0 1 rd 0\n0 0 2 push this\n0 0 3 rd 1\n\
                    0 0 4 rd 0\n0 0 5 op 41\n0 0 6 push this\n0 0 7 wr 0\n";
    assert_eq!(engine::listing(&image(&P)), expected.as_bytes());
}

#[test]
fn chain_ends_after_24() {
    runs(&P, &loads(&[(5, 0), (7, 1)]), &[0; 24], 0, 24, &loads(&[(5, 0), (12, 1)]));
}

#[test]
fn chain_lacks_a_turn_after_23() {
    runs(&P, &loads(&[(5, 0), (7, 1)]), &[0; 23], 33, 23, &loads(&[(5, 0), (7, 1)]));
}

/// 02 §5: turns go round.
#[test]
fn ring_goes_round() {
    runs(&P, &loads(&[(5, 2), (7, 1)]), &[0; 24], 0, 24, &loads(&[(12, 2), (12, 1)]));
}

/// Three orders that 01 gave by other bytes.
#[test]
fn ring_in_other_orders() {
    let ring = loads(&[(5, 2), (7, 1)]);
    for (order, first, second) in [
        (&[(8, 0), (8, 1), (8, 2)][..], 12, 19),
        (&[(8, 0), (8, 2), (8, 1)], 17, 12),
        (&[(8, 0), (6, 1), (8, 2), (2, 1)], 12, 12),
    ] {
        let turns = in_order(&[8; 3], &blocks_of(order));
        runs(&P, &ring, &turns, 0, 24, &loads(&[(first, 2), (second, 1)]));
    }
}

/// 01's two rows holding ones: now both records read before either writes.
#[test]
fn ring_with_ones() {
    let ring = loads(&[(5, 2), (7, 1)]);
    let turns = [[0; 8], [1; 8], [0; 8]].concat();
    runs(&P, &ring, &turns, 0, 24, &loads(&[(12, 2), (12, 1)]));
    let turns = [&[0; 14][..], &[1; 8], &[0; 2]].concat();
    runs(&P, &ring, &turns, 0, 24, &loads(&[(12, 2), (12, 1)]));
}

/// 02 §5: the stop with 35 comes after 17 turns.
#[test]
fn overflow_is_refused_after_17() {
    let before = loads(&[(1, 0), (2_147_483_647, 1)]);
    runs(&P, &before, &[0; 24], 35, 17, &before);
    runs(&P, &before, &[0; 18], 35, 17, &before);
    runs(&P, &before, &[0; 17], 33, 17, &before);
}

#[test]
fn fix_of_p() {
    let fix = join(&[&P[..18], &[1, 3, 1, 1, 0]]);
    accepted(&fix, 1, 1, 2, P_COMMANDS);
    runs(&fix, &loads(&[(5, 0)]), &[0; 16], 0, 16, &loads(&[(5, 0)]));
    runs(&fix, &loads(&[(5, 0)]), &[0; 40], 0, 16, &loads(&[(5, 0)]));
    runs(&fix, &loads(&[(5, 0)]), &[0; 15], 33, 15, &loads(&[(5, 0)]));
    runs(&fix, &loads(&[]), &[0; 8], 0, 8, &loads(&[]));
    runs(&fix, &loads(&[]), &[0; 9], 0, 8, &loads(&[]));
}

fn nots(count: usize) -> Vec<u8> {
    let expression = join(&[&vec![16; count], &[21, 1]]);
    program(&[&[2]], &[&[&step(0, &[&update(&[0], &expression)])]], &[1, 1, 0])
}

#[test]
fn fifteen_nots_but_not_sixteen() {
    let commands = format!("push 2 1, {} push this, wr 0", "not,".repeat(15));
    accepted(&nots(15), 1, 1, 2, &commands);
    runs(&nots(15), &table(&[(0, &[1])]), &[0; 36], 0, 36, &table(&[(0, &[0])]));
    refused(&nots(16), 5);
}

/// P's update eight times, then the statements given, with a second,
/// parameterless struct.
fn eight_updates(more: &[&[u8]]) -> Vec<u8> {
    let once = update(&[0], &op(41, &var(&[0]), &var(&[1, 0])));
    let mut statements: Vec<&[u8]> = vec![&once; 8];
    statements.extend_from_slice(more);
    program(&[&[0, 16], &[]], &[&[&step(0, &statements)], &[]], &[1, 1, 0])
}

#[test]
fn sixty_four_commands_but_not_sixty_five() {
    let once = &P[7..18];
    let alone = join(&[&[1, 2, 0, 16, 1, 0, 8], &once.repeat(8), &[1, 1, 0]]);
    let commands = [P_COMMANDS; 8].join(",");
    accepted(&alone, 1, 1, 2, &commands);
    accepted(&eight_updates(&[]), 2, 1, 2, &commands);
    refused(&eight_updates(&[&[4, 1]]), 6);
}

/// So many construct statements of a parameterless struct, then a literal
/// update.
fn constructs(count: usize) -> Vec<u8> {
    let literal = update(&[0], &int(9));
    let mut statements: Vec<&[u8]> = vec![&[4, 1]; count];
    statements.push(&literal);
    program(&[&[0], &[]], &[&[&step(0, &statements)], &[]], &[1, 1, 0])
}

#[test]
fn fourteen_constructs_but_not_fifteen() {
    let commands = format!("{} push 0 9, push this, wr 0", "cons 1,".repeat(14));
    accepted(&constructs(14), 2, 1, 16, &commands);
    let mut after = vec![(0u8, &[9i64][..])];
    after.extend([(1u8, &[][..]); 28]);
    let turns = [1; 34];
    runs(&constructs(14), &table(&[(0, &[3])]), &turns, 0, 34, &table(&after));
    refused(&constructs(15), 6);
}
