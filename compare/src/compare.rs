//! The comparison: both runners on the same case, every answer and every word of every buffer.

use crate::case::Case;
use crate::format::Part;
use crate::guarded::{item_difference, Guarded, GUARD_BYTE, GUARD_WORD};
use crate::pages::{self, page_difference, pages, Pages};
use crate::paper::Paper;
use crate::runner::{Answer, Lent, Needs, Runner};
use crate::write::hex;
use std::fmt;

/// Everything a runner answers and leaves behind.
#[derive(PartialEq)]
pub struct Outcome {
    pub check: Answer,
    prepare: Answer,
    pub run: Answer,
    records: Vec<Part>,
    needs: Needs,
    file: Guarded<u8>,
    prepared: Guarded<u32>,
    /// Inputs, constants, registers, work and memory after the run.
    words: [Guarded<u32>; 5],
    pub pages: Option<Pages>,
}

const WORDS: [&str; 5] = ["inputs", "constants", "registers", "work", "memory"];

/// Makes all calls of a case.
pub fn outcome(runner: &dyn Runner, case: &Case) -> Outcome {
    let file = Guarded::new(&case.file, GUARD_BYTE);
    let check = runner.check(file.inner());
    let mut prepared = Guarded::new(&case.work, GUARD_WORD);
    let prepare = runner.prepare(file.inner(), prepared.inner_mut());
    let lent = [&case.inputs, &case.constants, &case.registers, &case.work, &case.memory];
    let mut words = lent.map(|content| Guarded::new(content, GUARD_WORD));
    let [inputs, constants, registers, work, memory] = &mut words;
    let lent = Lent {
        inputs: inputs.inner(),
        constants: constants.inner(),
        registers: registers.inner_mut(),
        work: work.inner_mut(),
        memory: memory.inner_mut(),
    };
    let run = runner.run(file.inner(), lent, case.budget);
    let records = case.records.iter().map(|&n| runner.record(file.inner(), n)).collect();
    let needs = runner.needs(file.inner());
    let pages = case.paper.as_ref().map(|paper| pages(runner, file.inner(), paper));
    Outcome { check, prepare, run, records, needs, file, prepared, words, pages }
}

/// The first difference of two outcomes, in words.
pub fn difference(a: &Outcome, b: &Outcome) -> Option<String> {
    if a == b {
        return None;
    }
    let answers = [("check", a.check, b.check), ("prepare", a.prepare, b.prepare), ("run", a.run, b.run)];
    for (call, a, b) in answers {
        if a != b {
            return Some(format!("{call} answers {a:?} and {b:?}"));
        }
    }
    if a.records != b.records {
        return Some(format!("records {:?} and {:?}", a.records, b.records));
    }
    if a.needs != b.needs {
        return Some(format!("needs {:?} and {:?}", a.needs, b.needs));
    }
    if a.file != b.file {
        return Some("the file's bytes are changed".into());
    }
    let mut buffers = vec![("prepared work", &a.prepared, &b.prepared)];
    buffers.extend((0..5).map(|i| (WORDS[i], &a.words[i], &b.words[i])));
    let of_words = buffers.iter().find_map(|(name, a, b)| item_difference(name, a, b));
    of_words.or_else(|| a.pages.as_ref().zip(b.pages.as_ref()).and_then(|(a, b)| page_difference(a, b)))
}

/// What an outcome shows by itself to be wrong.
pub fn broken_law(case: &Case, outcome: &Outcome) -> Option<String> {
    pages::broken_law(outcome.pages.as_ref()?, &case.file, case.paper.as_ref()?)
}

/// All of a case, so that it can be given again by hand.
pub fn dump(case: &Case) -> String {
    let words = |words: &[u32]| words.iter().map(|word| format!(" {word:08X}")).collect::<String>();
    let lent = [&case.inputs, &case.constants, &case.registers, &case.work, &case.memory];
    let mut text = format!("file ({} bytes) {}\n", case.file.len(), hex(&case.file));
    for (name, content) in WORDS.iter().zip(lent) {
        text += &format!("{name} ({} words){}\n", content.len(), words(content));
    }
    text += &format!("budget {}\nrecords {:?}\n", case.budget, case.records);
    if let Some(Paper { text: listing, misprint, outputs: [printed, read] }) = &case.paper {
        text += &format!("text ({} bytes) {}\nmisprint {misprint:?}\n", listing.len(), listing.escape_ascii());
        text += &format!("printed ({} bytes) {}\n", printed.len(), hex(printed));
        text += &format!("read ({} bytes) {}\n", read.len(), hex(read));
    }
    text
}

impl fmt::Display for Outcome {
    fn fmt(&self, f: &mut fmt::Formatter) -> fmt::Result {
        write!(f, "{:?}", self.run)?;
        self.pages.iter().try_for_each(|pages| write!(f, ", print {:?}, read {:?}", pages.print, pages.read))
    }
}

#[cfg(test)]
mod tests {
    use super::*;
    use crate::run::Second;

    fn change<T: Copy + std::ops::Not<Output = T>>(buffer: &mut Guarded<T>, at: usize) {
        buffer.0[at] = !buffer.0[at];
    }

    /// One changed word is found in every buffer, read-only ones and guards among them.
    #[test]
    fn every_word_is_compared() {
        let case = Case::new(5, 7);
        let made = || outcome(&Second::new(), &case);
        let wanted = made();
        assert!(difference(&made(), &wanted).is_none());
        for (i, name) in WORDS.iter().enumerate() {
            for at in 0..wanted.words[i].0.len() {
                let mut other = made();
                change(&mut other.words[i], at);
                assert!(difference(&other, &wanted).is_some_and(|text| text.starts_with(name)));
            }
        }
        for at in 0..wanted.prepared.0.len() {
            let mut other = made();
            change(&mut other.prepared, at);
            assert!(difference(&other, &wanted).is_some_and(|text| text.starts_with("prepared")));
        }
        for at in 0..wanted.file.0.len() {
            let mut other = made();
            change(&mut other.file, at);
            assert!(difference(&other, &wanted).is_some());
        }
    }
}
