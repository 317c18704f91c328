//! The prepared table, and limits of blocks and instructions.

use super::*;
use crate::kinds::*;

fn table(records: &[Vec<u8>]) -> Vec<[u32; 2]> {
    let left = run(&records.concat(), &[], 0);
    assert_eq!(left.answer, Answer::halted(0, 0));
    let instructions = records.iter().filter(|record| instruction(record[0]).is_some()).count();
    (0..instructions).map(|n| [left.work[3 * n + 1], left.work[3 * n + 2]]).collect()
}

#[test]
fn jumps_of_if_and_loop() {
    let [bgnloop, brk, cont, other, endif, endloop, end] =
        [BGNLOOP, BRK, CONT, ELSE, ENDIF, ENDLOOP, END].map(write::mark);
    let body = vec![bgnloop, on(UIF, 0), brk, other, cont, endif.clone(), on(UIF, 1), endif, endloop, end];
    let jumps = [0, 4, 9, 6, 1, 0, 8, 0, 1, 0];
    assert_eq!(table(&with_head(body)), jumps.map(|jump| [jump, 0]));
}

#[test]
fn labels_of_a_switch() {
    let [bgnloop, brk, cont, default, endswitch, endloop, end] =
        [BGNLOOP, BRK, CONT, DEFAULT, ENDSWITCH, ENDLOOP, END].map(write::mark);
    let inner = vec![on(SWITCH, 0), on(CASE, 1), brk.clone(), endswitch.clone()];
    let mut body = vec![bgnloop, on(SWITCH, 0), on(CASE, 0)];
    body.extend(inner);
    body.extend([on(CASE, 1), cont, default, brk, endswitch, endloop, end]);
    let rows = [
        [0, 0],
        [12, 2],
        [0, 7],
        [7, 4],
        [0, 0],
        [7, 0],
        [0, 0],
        [0, 9],
        [1, 0],
        [0, 0],
        [12, 0],
        [0, 0],
        [1, 0],
        [0, 0],
    ];
    assert_eq!(table(&with_head(body)), rows);
}

/// So many blocks inside one another, then END.
fn nest(levels: usize) -> Vec<Vec<u8>> {
    let mut body = vec![on(UIF, 1); levels];
    body.extend(vec![write::mark(ENDIF); levels]);
    body.push(write::mark(END));
    with_head(body)
}

#[test]
fn sixteen_open_blocks() {
    assert_eq!(check(&nest(16)), Answer::done(33));
    assert_eq!(check(&nest(17)), Answer::refused(12, BODY + 16 * 6));
    assert_eq!(run(&nest(16).concat(), &[], 99).answer, Answer::done(33));
}

#[test]
fn number_of_instructions_and_immediates() {
    let nops = |n: usize| [vec![write::mark(NOP); n], vec![write::mark(END)]].concat();
    assert_eq!(check(&nops(1023)), Answer::done(1024));
    assert_eq!(check(&nops(1024)), Answer::refused(6, 1024));
    let immediates = |n: usize| [vec![write::immediate([0; 4]); n], vec![write::mark(END)]].concat();
    assert_eq!(check(&immediates(256)), Answer::done(1));
    assert_eq!(check(&immediates(257)), Answer::refused(6, 256 * 17));
}

#[test]
fn brk_and_cont_cross_if_and_switch() {
    // T0.x counts; CONT in a SWITCH in a UIF starts the loop anew, BRK in the SWITCH leaves only the SWITCH.
    let count = write::instruction(
        UADD,
        write::destination(TEMP, 0, 1),
        &[write::direct(TEMP, 0), write::source(IMM, 0, 0b0101_0101, 0)],
    );
    let [bgnloop, brk, cont, default, endswitch, endif, endloop, end] =
        [BGNLOOP, BRK, CONT, DEFAULT, ENDSWITCH, ENDIF, ENDLOOP, END].map(write::mark);
    let selector = write::control(SWITCH, write::direct(TEMP, 0));
    let labels = vec![on(CASE, 2), brk.clone(), default, cont, endswitch];
    let body = [vec![bgnloop, count, on(UIF, 1), selector], labels, vec![endif, brk, endloop, end]].concat();
    let left = run(&with_head(body).concat(), &[], 100);
    // One step for BGNLOOP, 4 with CONT in the first round, 6 in the second, then END.
    assert_eq!(left.answer, Answer::done(12));
    assert_eq!(left.registers[128], 2);
}
