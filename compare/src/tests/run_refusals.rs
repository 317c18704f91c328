//! Refusals 20 to 24, and that a refusal leaves every lent word alone.

use super::*;
use crate::kinds::*;
use crate::run::MOST_MEMORY;

/// IN[0..2] and CONST[5] declared, three instructions.
fn file() -> Vec<u8> {
    let head = [write::declaration(IN, 0, 2), write::declaration(CONST, 5, 5)];
    [head.concat(), vec![NOP, NOP, END]].concat()
}

/// Runs with these lengths: inputs, constants, registers, work, memory.
fn run_with(lengths: [usize; 5]) -> Answer {
    let [inputs, constants, registers, work, memory] = lengths.map(|length| vec![5; length]);
    let (mut registers, mut work, mut memory) = (registers, work, memory);
    let lent = Lent {
        inputs: &inputs,
        constants: &constants,
        registers: &mut registers,
        work: &mut work,
        memory: &mut memory,
    };
    let answer = Second::new().run(&file(), lent, 10);
    if answer.status == crate::runner::REFUSED {
        assert!([&registers, &work, &memory].iter().all(|words| words.iter().all(|&word| word == 5)));
    }
    answer
}

#[test]
fn lengths_in_order() {
    assert_eq!(run_with([12, 24, 1156, 9, MOST_MEMORY]), Answer::done(3));
    assert_eq!(run_with([11, 23, 1155, 8, MOST_MEMORY + 1]), Answer::refused(20, 0));
    assert_eq!(run_with([12, 23, 1155, 8, MOST_MEMORY + 1]), Answer::refused(21, 0));
    assert_eq!(run_with([12, 24, 1155, 8, MOST_MEMORY + 1]), Answer::refused(22, 0));
    assert_eq!(run_with([12, 24, 1156, 8, MOST_MEMORY + 1]), Answer::refused(23, 0));
    assert_eq!(run_with([12, 24, 1156, 9, MOST_MEMORY + 1]), Answer::refused(24, 0));
}

#[test]
fn preparing_alone() {
    let mut work = vec![5; 10];
    assert_eq!(Second::new().prepare(&file(), &mut work[..8]), Answer::refused(23, 0));
    assert_eq!(work, [5; 10]);
    assert_eq!(Second::new().prepare(&file(), &mut work), Answer::done(3));
    assert_eq!(work, [12, 0, 0, 13, 0, 0, 14, 0, 0, 5]);
}

#[test]
fn file_refusals_come_first() {
    let lent = Lent { inputs: &[], constants: &[], registers: &mut [], work: &mut [], memory: &mut [] };
    assert_eq!(Second::new().run(&[NOP], lent, 0), Answer::refused(13, 1));
}

#[test]
fn nothing_declared_needs_no_words() {
    let (mut registers, mut work) = ([7; 1157], [7; 4]);
    let lent = Lent { inputs: &[], constants: &[], registers: &mut registers, work: &mut work, memory: &mut [] };
    assert_eq!(Second::new().run(&[END], lent, u32::MAX), Answer::done(1));
    assert_eq!((registers[1155], registers[1156], work), (0, 7, [0, 0, 0, 7]));
}
