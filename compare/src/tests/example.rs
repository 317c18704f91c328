//! The example and the old fault: BRK in a SWITCH leaves the loop around it too.

use super::*;
use crate::control;
use crate::example::{example, measure, rows, Measure};
use crate::kinds::*;

#[test]
fn results_of_the_table() {
    let texts: Vec<&str> = rows().iter().map(|row| row.text).collect();
    assert_eq!(texts, ["2,5", "25", "2,", ",5", "13,75", "12345678"]);
    assert!(example(None));
}

/// Ten times too much: 250 tenths for `2,5`.
#[test]
fn old_fault_reads_no_comma() {
    assert_eq!(measure(&Second::new(), "2,5"), Measure::ended(25, 1, 69));
    assert_eq!(measure(&Second::with_old_fault(), "2,5"), Measure::ended(250, 0, 63));
}

/// A runner with the old fault, in the library's place, fails the example and the recorded programs.
#[test]
fn old_fault_is_found() {
    assert!(!example(Some(&Second::with_old_fault())));
    assert!(control::run_programs(&Second::with_old_fault()).is_err());
}

/// The steps of a body after the head by the paper's rule, and with the old fault.
fn steps(body: Vec<Vec<u8>>) -> [Answer; 2] {
    let file = with_head(body).concat();
    [Second::new(), Second::with_old_fault()].map(|second| run_by(&second, &file, &[], 100).answer)
}

/// SWITCH with one CASE, taken, of these records.
fn switch(inside: &[Vec<u8>]) -> Vec<Vec<u8>> {
    [&[on(SWITCH, 0), on(CASE, 0)], inside, &[write::mark(ENDSWITCH)]].concat()
}

#[test]
fn old_fault_leaves_just_the_innermost_loop() {
    let [bgnloop, brk, endloop, end] = [BGNLOOP, BRK, ENDLOOP, END].map(write::mark);
    let brk = [brk];
    let inner = switch(&brk);
    // No loop around it: SWITCH, SWITCH, BRK, ENDSWITCH, END.
    assert_eq!(steps([switch(&inner), vec![end.clone()]].concat()), [Answer::done(5); 2]);
    // Two SWITCHes in a loop: BGNLOOP, SWITCH, SWITCH, BRK, then ENDSWITCH, BRK, END or END at once.
    let twice = [vec![bgnloop.clone()], switch(&inner), brk.to_vec(), vec![endloop.clone()]].concat();
    assert_eq!(steps([twice, vec![end.clone()]].concat()), [7, 5].map(Answer::done));
    // Two loops: the outer one goes on to its BRK.
    let once = [vec![bgnloop.clone()], inner, brk.to_vec(), vec![endloop.clone()]].concat();
    let outer = [vec![bgnloop], once, brk.to_vec(), vec![endloop, end]].concat();
    assert_eq!(steps(outer), [7, 6].map(Answer::done));
}
