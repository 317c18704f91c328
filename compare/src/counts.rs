//! What the cases of a comparison met, so that nothing is left out unseen.

use crate::case::Case;
use crate::compare::Outcome;
use crate::kinds;
use crate::misprint::{self, Misprint};
use crate::runner::{Answer, DONE, REFUSED};

/// How often a call gave each status and each refusal.
#[derive(Default)]
pub struct Tally {
    pub statuses: [u64; 3],
    pub refusals: [u64; 32],
}

impl Tally {
    fn add(&mut self, answer: &Answer) {
        self.statuses[answer.status as usize] += 1;
        if answer.status == REFUSED {
            self.refusals[answer.first as usize] += 1;
        }
    }

    pub fn has_all(&self, numbers: &[usize]) -> bool {
        self.statuses[DONE as usize] > 0 && numbers.iter().all(|&number| self.refusals[number] > 0)
    }

    fn print_refusals(&self, numbers: &[usize]) {
        for row in numbers.chunks(7) {
            let cells = row.iter().map(|&number| format!("  {number:2} {:7}", self.refusals[number]));
            println!("{}", cells.collect::<String>());
        }
    }
}

/// The refusals there are in running, printing and reading. A line that is not malformed is a whole record of a known kind, so that in
/// reading there is no 3 and no 4.
pub const RUNNING: [usize; 18] = [1, 2, 3, 4, 5, 6, 7, 8, 9, 10, 11, 12, 13, 20, 21, 22, 23, 24];
pub const PRINTING: [usize; 14] = [1, 2, 3, 4, 5, 6, 7, 8, 9, 10, 11, 12, 13, 31];
pub const READING: [usize; 13] = [1, 2, 5, 6, 7, 8, 9, 10, 11, 12, 13, 30, 31];

/// What the cases met.
#[derive(Default)]
pub struct Counts {
    pub run: Tally,
    pub print: Tally,
    pub read: Tally,
    pub misprints: [u64; misprint::ALL.len()],
    /// Misprints in listings of programs that are refused themselves.
    pub before_faults: u64,
}

impl Counts {
    pub fn add(&mut self, case: &Case, outcome: &Outcome) {
        self.run.add(&outcome.run);
        if let Some(pages) = &outcome.pages {
            self.print.add(&pages.print);
            self.read.add(&pages.read);
        }
        if let Some((misprint, _)) = case.paper.as_ref().and_then(|paper| paper.misprint) {
            self.misprints[misprint as usize] += 1;
            self.before_faults += (outcome.check.status == REFUSED) as u64;
        }
    }

    /// Whether every refusal and every misprint was met.
    pub fn is_complete(&self) -> bool {
        let all = self.run.has_all(&RUNNING) && self.print.has_all(&PRINTING) && self.read.has_all(&READING);
        all && self.before_faults > 0 && self.misprints.iter().all(|&count| count > 0)
    }

    /// Prints all counts; true if none is 0.
    pub fn print(&self, carried_out: &[u64; 256]) -> bool {
        let Counts { run, print, read, misprints, before_faults } = self;
        println!("ended {}, halted {}, refused {}:", run.statuses[0], run.statuses[1], run.statuses[2]);
        run.print_refusals(&RUNNING);
        println!("printed {}, refused {}:", print.statuses[0], print.statuses[2]);
        print.print_refusals(&PRINTING);
        println!("read {}, refused {}:", read.statuses[0], read.statuses[2]);
        read.print_refusals(&READING);
        println!("listings misprinted, {before_faults} of refused programs:");
        for row in misprint::ALL.chunks(4) {
            let cell =
                |misprint: &Misprint| format!("  {:14} {:5}", format!("{misprint:?}"), misprints[*misprint as usize]);
            println!("{}", row.iter().map(cell).collect::<String>());
        }
        println!("instructions carried out:");
        for row in kinds::ALL.chunks(4) {
            let cells = row.iter().map(|kind| format!("  {:9} {:9}", kind.name, carried_out[kind.byte as usize]));
            println!("{}", cells.collect::<String>().trim_end());
        }
        self.is_complete() && kinds::ALL.iter().all(|kind| carried_out[kind.byte as usize] > 0)
    }
}
