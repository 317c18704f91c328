//! The comparison itself: the generator reaches everything, and wrong runners are found.

use super::faulty_pages::{self, PageFault};
use super::*;
use crate::case::Case;
use crate::compare::{broken_law, difference, outcome};
use crate::counts::Counts;
use crate::plain::Plain;
use crate::runner::{Needs, REFUSED};
use crate::{control, vectors};

const CASES: u64 = 20_000;

#[test]
fn every_refusal_and_kind_occurs() {
    let second = Second::new();
    let mut counts = Counts::default();
    for number in 0..CASES {
        let case = Case::new(1, number);
        let outcome = outcome(&second, &case);
        assert_eq!(broken_law(&case, &outcome), None, "seed 1, case {number}");
        counts.add(&case, &outcome);
    }
    assert!(counts.print(&second.carried_out.borrow()));
    assert!(counts.run.statuses.iter().all(|&count| count > CASES / 10), "{:?}", counts.run.statuses);
}

#[test]
fn recorded_results() {
    assert_eq!(vectors::run_lines(&Second::new()), Ok(8293));
    let totals = control::Totals { programs: 56, ends: 206, halts: 1362 };
    assert_eq!(control::run_programs(&Second::new()), Ok(totals));
}

/// The plain interpreter goes by jumps, the second by nested lists.
#[test]
fn plain_interpreter_agrees() {
    for number in 0..CASES {
        let case = Case::new(2, number);
        let run = |runner: &dyn Runner| {
            let (mut registers, mut work, mut memory) =
                (case.registers.clone(), case.work.clone(), case.memory.clone());
            let lent = Lent {
                inputs: &case.inputs,
                constants: &case.constants,
                registers: &mut registers,
                work: &mut work,
                memory: &mut memory,
            };
            (runner.run(&case.file, lent, case.budget), registers, work, memory)
        };
        let wanted = run(&Second::new());
        if wanted.0.status != REFUSED {
            assert!(run(&Plain) == wanted, "seed 2, case {number}");
        }
    }
}

/// The second interpreter with one fault.
struct Faulty {
    second: Second,
    fault: Fault,
}

#[derive(Clone, Copy, PartialEq, Debug)]
enum Fault {
    None,
    Steps,
    Place,
    ClearsTooFar,
    ClearsOnRefusal,
    TableRowTooMany,
    RecordStart,
    NeedsOfAnotherFile,
    Page(PageFault),
}

impl Runner for Faulty {
    fn name(&self) -> &'static str {
        "faulty"
    }

    fn check(&self, file: &[u8]) -> Answer {
        let mut answer = self.second.check(file);
        answer.second += (self.fault == Fault::Place && answer.first == 10) as u32;
        answer
    }

    fn prepare(&self, file: &[u8], work: &mut [u32]) -> Answer {
        let answer = self.second.prepare(file, work);
        let end = 3 * answer.first as usize;
        if self.fault == Fault::TableRowTooMany && answer.status == 0 && work.len() > end {
            work[end] = 0;
        }
        answer
    }

    fn run(&self, file: &[u8], lent: Lent, budget: u32) -> Answer {
        let Lent { inputs, constants, registers, work, memory } = lent;
        let again = Lent { inputs, constants, registers: &mut *registers, work, memory };
        let mut answer = self.second.run(file, again, budget);
        let refused = answer.status == REFUSED;
        match self.fault {
            Fault::Steps if answer.status == 1 => answer.first += 1,
            Fault::ClearsTooFar if !refused => registers.iter_mut().skip(REGISTER_WORDS).for_each(|word| *word = 0),
            Fault::ClearsOnRefusal if refused => registers.iter_mut().take(1).for_each(|word| *word = 0),
            _ => {}
        }
        answer
    }

    fn record(&self, file: &[u8], n: usize) -> Part {
        let mut part = self.second.record(file, n);
        part.start -= (self.fault == Fault::RecordStart && part.length == 0 && !file.is_empty()) as usize;
        part
    }

    fn needs(&self, file: &[u8]) -> Needs {
        let needs = self.second.needs(file);
        match self.fault {
            Fault::NeedsOfAnotherFile => Needs { input_words: needs.constant_words, ..needs },
            _ => needs,
        }
    }

    fn print(&self, file: &[u8], output: &mut [u8]) -> Answer {
        match self.fault {
            Fault::Page(fault) => faulty_pages::print(fault, file, output),
            _ => self.second.print(file, output),
        }
    }

    fn read(&self, text: &[u8], output: &mut [u8]) -> Answer {
        match self.fault {
            Fault::Page(fault) => faulty_pages::read(fault, text, output),
            _ => self.second.read(text, output),
        }
    }
}

fn finds(fault: Fault) -> bool {
    let (faulty, second) = (Faulty { second: Second::new(), fault }, Second::new());
    (0..CASES / 4).any(|number| {
        let case = Case::new(3, number);
        difference(&outcome(&faulty, &case), &outcome(&second, &case)).is_some()
    })
}

#[test]
fn faults_are_found() {
    assert!(!finds(Fault::None));
    let faults = [
        Fault::Steps,
        Fault::Place,
        Fault::ClearsTooFar,
        Fault::ClearsOnRefusal,
        Fault::TableRowTooMany,
        Fault::RecordStart,
        Fault::NeedsOfAnotherFile,
    ];
    for fault in faults.into_iter().chain(faulty_pages::ALL.map(Fault::Page)) {
        assert!(finds(fault), "{fault:?}");
    }
}
