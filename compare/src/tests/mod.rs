//! Tests of the second interpreter and of the comparison itself.

mod blocks;
mod differences_document;
mod documents;
mod driver;
mod example;
mod faulty_pages;
mod format_document;
mod listing;
mod printout;
mod refusals;
mod run_refusals;
mod small_cases;

use crate::format::*;
use crate::machine::REGISTER_WORDS;
use crate::run::Second;
use crate::runner::{Answer, Lent, Runner};
use crate::write;

/// What a run leaves.
pub struct Left {
    pub answer: Answer,
    pub registers: Vec<u32>,
    pub work: Vec<u32>,
    pub memory: Vec<u32>,
}

/// Runs a file with enough of everything lent.
pub fn run(file: &[u8], memory: &[u32], budget: u32) -> Left {
    run_by(&Second::new(), file, memory, budget)
}

pub fn run_by(runner: &dyn Runner, file: &[u8], memory: &[u32], budget: u32) -> Left {
    let (mut registers, mut work) = (vec![9; REGISTER_WORDS + 1], vec![9; 3 * 1024 + 1]);
    let mut memory = memory.to_vec();
    let (inputs, constants) = (&[0; 128], &[0; 4096]);
    let lent = Lent { inputs, constants, registers: &mut registers, work: &mut work, memory: &mut memory };
    let answer = runner.run(file, lent, budget);
    Left { answer, registers, work, memory }
}

pub fn check(records: &[Vec<u8>]) -> Answer {
    Second::new().check(&records.concat())
}

/// OUT[0..1], TEMP[0..3], ADDR, MEM and one immediate.
pub fn head() -> Vec<Vec<u8>> {
    vec![
        write::declaration(OUT, 0, 1),
        write::declaration(TEMP, 0, 3),
        write::declaration(ADDR, 0, 0),
        write::declaration(MEM, 0, 0),
        write::immediate([0, 1, 2, 3]),
    ]
}

/// The place of the first record after `head`.
pub const BODY: u32 = 4 * 6 + 17;

/// UIF, SWITCH or CASE on a component of the immediate.
pub fn on(kind: u8, component: u8) -> Vec<u8> {
    write::control(kind, write::source(IMM, 0, component, 0))
}

/// The head and then these records.
pub fn with_head(body: Vec<Vec<u8>>) -> Vec<Vec<u8>> {
    let mut records = head();
    records.extend(body);
    records
}
