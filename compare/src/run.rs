//! The second interpreter's seven calls, with the answers the C interface gives.

use crate::check::{check, Program, Refusal};
use crate::format::{self, Part, CONST, IN, MEM, OUT};
use crate::machine::{Machine, REGISTER_WORDS};
use crate::printout;
use crate::reading::{nest, Reading, Stop, SwitchBrk};
use crate::runner::{Answer, Lent, Needs, Runner};
use crate::table::rows;
use std::cell::RefCell;

pub const MOST_MEMORY: usize = 16_384;

/// The second interpreter. It counts the instructions it carries out, by kind.
pub struct Second {
    pub carried_out: RefCell<[u64; 256]>,
    switch_brk: SwitchBrk,
}

impl Second {
    pub fn new() -> Second {
        Second { carried_out: RefCell::new([0; 256]), switch_brk: SwitchBrk::Switch }
    }

    /// With the old fault in its block reading; its check and table are the paper's.
    pub fn with_old_fault() -> Second {
        Second { switch_brk: SwitchBrk::LoopToo, ..Second::new() }
    }
}

const NOTHING: Needs = Needs {
    answer: Answer { status: 0, first: 0, second: 0 },
    instructions: 0,
    work_words: 0,
    input_words: 0,
    constant_words: 0,
    outputs: 0,
    memory: 0,
};

/// A place past the last number of 32 bits, which only a listing can have, is given as that number.
fn refused(refusal: Refusal) -> Answer {
    Answer::refused(refusal.number, u32::try_from(refusal.place).unwrap_or(u32::MAX))
}

fn written(result: Result<usize, Refusal>) -> Answer {
    result.map_or_else(refused, |length| Answer::done(length as u32))
}

/// "working words under 3 per instruction"
fn work_is_short(program: &Program, work: &[u32]) -> bool {
    work.len() < 3 * program.instructions.len()
}

/// Refusals 20 to 24 "in order, place 0".
fn lent_refusal(program: &Program, lent: &Lent) -> Option<Answer> {
    let rules = [
        (20, lent.inputs.len() < program.declared.words_needed(IN)),
        (21, lent.constants.len() < program.declared.words_needed(CONST)),
        (22, lent.registers.len() < REGISTER_WORDS),
        (23, work_is_short(program, lent.work)),
        (24, lent.memory.len() > MOST_MEMORY),
    ];
    rules.iter().find(|(_, is_broken)| *is_broken).map(|(number, _)| Answer::refused(*number, 0))
}

impl Runner for Second {
    fn name(&self) -> &'static str {
        match self.switch_brk {
            SwitchBrk::Switch => "second interpreter",
            SwitchBrk::LoopToo => "with the old fault",
        }
    }

    fn check(&self, file: &[u8]) -> Answer {
        match check(file) {
            Ok(program) => Answer::done(program.instructions.len() as u32),
            Err(refusal) => refused(refusal),
        }
    }

    fn prepare(&self, file: &[u8], work: &mut [u32]) -> Answer {
        match check(file) {
            Ok(program) if work_is_short(&program, work) => Answer::refused(23, 0),
            Ok(program) => {
                let table = rows(&program, &nest(&program.instructions));
                work[..3 * table.len()].copy_from_slice(table.as_flattened());
                Answer::done(program.instructions.len() as u32)
            }
            Err(refusal) => refused(refusal),
        }
    }

    /// "A run checks, prepares, clears these and no word past them, then carries out."
    fn run(&self, file: &[u8], lent: Lent, budget: u32) -> Answer {
        let program = match check(file) {
            Ok(program) => program,
            Err(refusal) => return refused(refusal),
        };
        if let Some(answer) = lent_refusal(&program, &lent) {
            return answer;
        }
        let list = nest(&program.instructions);
        let table = rows(&program, &list);
        lent.work[..3 * table.len()].copy_from_slice(table.as_flattened());
        let machine = Machine::new(&program, lent.inputs, lent.constants, lent.memory);
        let carried_out = &mut *self.carried_out.borrow_mut();
        let switch_brk = self.switch_brk;
        let mut reading =
            Reading { program: &program, machine, budget, count: 0, switch_brk, open_loops: 0, carried_out };
        let stop = reading.read(&list);
        reading.machine.lay_out(lent.registers);
        match stop {
            Stop::End => Answer::done(reading.count),
            Stop::Halt(next) => Answer::halted(reading.count, next as u32),
            _ => unreachable!("the outermost list ends with END, and BRK and CONT are inside blocks"),
        }
    }

    fn record(&self, file: &[u8], n: usize) -> Part {
        format::record(file, n)
    }

    /// The least lengths that 20, 21 and 23 let pass, and of a refused file nothing.
    fn needs(&self, file: &[u8]) -> Needs {
        let Program { declared, instructions, .. } = match check(file) {
            Ok(program) => program,
            Err(refusal) => return Needs { answer: refused(refusal), ..NOTHING },
        };
        Needs {
            answer: Answer::done(instructions.len() as u32),
            instructions: instructions.len() as u32,
            work_words: 3 * instructions.len() as u32,
            input_words: declared.words_needed(IN) as u32,
            constant_words: declared.words_needed(CONST) as u32,
            outputs: (0..32).filter(|&i| declared.has(OUT, i)).map(|i| 1 << i).sum(),
            memory: declared.has_any(MEM) as u32,
        }
    }

    fn print(&self, file: &[u8], output: &mut [u8]) -> Answer {
        written(printout::print(file, output))
    }

    fn read(&self, text: &[u8], output: &mut [u8]) -> Answer {
        written(printout::read(text, output))
    }
}

#[cfg(test)]
mod tests {
    use super::*;

    #[test]
    fn far_places() {
        let place = |place| refused(Refusal { number: 30, place }).second;
        assert_eq!(
            [0, 0xFFFF_FFFE, 0xFFFF_FFFF, 1 << 32, usize::MAX].map(place),
            [0, u32::MAX - 1, u32::MAX, u32::MAX, u32::MAX]
        );
    }
}
