//! Printing and reading in the comparison: what a runner answers and leaves, both ways round.

use crate::guarded::{item_difference, Guarded, GUARD_BYTE};
use crate::paper::Paper;
use crate::runner::{Answer, Runner, DONE};

/// What comes of printing a file and of reading a text.
#[derive(PartialEq)]
pub struct Pages {
    pub print: Answer,
    pub read: Answer,
    text: Guarded<u8>,
    /// After printing and after reading.
    outputs: [Guarded<u8>; 2],
    /// What was printed, read back, and what was read, printed again.
    back: Option<(Answer, Guarded<u8>)>,
    again: Option<(Answer, Guarded<u8>)>,
}

pub fn pages(runner: &dyn Runner, file: &[u8], paper: &Paper) -> Pages {
    let text = Guarded::new(&paper.text, GUARD_BYTE);
    let mut outputs = paper.outputs.each_ref().map(|content| Guarded::new(content, GUARD_BYTE));
    let [printed, copied] = &mut outputs;
    let print = runner.print(file, printed.inner_mut());
    let read = runner.read(text.inner(), copied.inner_mut());
    let back = written(print, printed).map(|listing| delivered(file.len(), |output| runner.read(listing, output)));
    let again = written(read, copied).map(|file| delivered(paper.text.len(), |output| runner.print(file, output)));
    Pages { print, read, text, outputs, back, again }
}

/// The bytes that a call says it wrote.
fn written(answer: Answer, output: &Guarded<u8>) -> Option<&[u8]> {
    output.inner().get(..answer.first as usize).filter(|_| answer.status == DONE)
}

/// What a call answers and leaves of an output of this length and of its guards.
fn delivered(length: usize, call: impl FnOnce(&mut [u8]) -> Answer) -> (Answer, Guarded<u8>) {
    let mut output = Guarded::new(&vec![0; length], GUARD_BYTE);
    (call(output.inner_mut()), output)
}

/// The first difference in printing and reading.
pub fn page_difference(a: &Pages, b: &Pages) -> Option<String> {
    for (call, a, b) in [("print", a.print, b.print), ("read", a.read, b.read)] {
        if a != b {
            return Some(format!("{call} answers {a:?} and {b:?}"));
        }
    }
    if a.text != b.text {
        return Some("the text's bytes are changed".into());
    }
    let outputs = ["printed", "read"].into_iter().zip(a.outputs.iter().zip(&b.outputs));
    let of_bytes = outputs.into_iter().find_map(|(name, (a, b))| item_difference(name, a, b));
    of_bytes
        .or_else(|| (a.back != b.back).then(|| "what was printed is not read alike".into()))
        .or_else(|| (a.again != b.again).then(|| "what was read is not printed alike".into()))
}

/// What the pages show by themselves to be wrong: "File to listing to file gives the same bytes, and a listing that is read and printed
/// again is unchanged", and a line damaged with aim is malformed.
pub fn broken_law(pages: &Pages, file: &[u8], paper: &Paper) -> Option<String> {
    let unchanged = |content: &[u8]| (Answer::done(content.len() as u32), Guarded::new(content, GUARD_BYTE));
    if pages.back.as_ref().is_some_and(|back| *back != unchanged(file)) {
        return Some("the file printed and read back is another".into());
    }
    if pages.again.as_ref().is_some_and(|again| *again != unchanged(&paper.text)) {
        return Some("the listing read and printed again is another".into());
    }
    let (misprint, place) = paper.misprint?;
    let wanted = Answer::refused(30, place as u32);
    (pages.read != wanted).then(|| format!("{misprint:?}, {:?} and not {wanted:?}", pages.read))
}

#[cfg(test)]
mod tests {
    use super::*;
    use crate::case::Case;
    use crate::run::Second;

    fn made(case: &Case) -> Option<Pages> {
        case.paper.as_ref().map(|paper| pages(&Second::new(), &case.file, paper))
    }

    /// Cases that are printed and read, the file and the listing both coming back.
    fn round_trips() -> impl Iterator<Item = Case> {
        let is_one = |case: &Case| made(case).is_some_and(|pages| pages.back.is_some() && pages.again.is_some());
        (0..800).map(|number| Case::new(6, number)).filter(is_one)
    }

    fn change(buffer: &mut Guarded<u8>, at: usize) {
        buffer.0[at] = !buffer.0[at];
    }

    /// One changed byte is found in every buffer, and a changed answer.
    #[test]
    fn every_byte_is_compared() {
        let case = round_trips().next().expect("a case");
        let wanted = made(&case).expect("pages");
        let is_found = |change: &dyn Fn(&mut Pages)| {
            let mut other = made(&case).expect("pages");
            change(&mut other);
            page_difference(&other, &wanted).is_some()
        };
        assert!(!is_found(&|_| {}));
        assert!((0..wanted.text.0.len()).all(|at| is_found(&|pages| change(&mut pages.text, at))));
        for (i, output) in wanted.outputs.iter().enumerate() {
            assert!((0..output.0.len()).all(|at| is_found(&|pages| change(&mut pages.outputs[i], at))));
        }
        assert!(is_found(&|pages| pages.back = None) && is_found(&|pages| pages.again = None));
        assert!(is_found(&|pages| pages.print.first += 1) && is_found(&|pages| pages.read.second += 1));
    }

    fn breaks_law(case: &Case, change: impl Fn(&mut Pages)) -> bool {
        let mut pages = made(case).expect("pages");
        change(&mut pages);
        broken_law(&pages, &case.file, case.paper.as_ref().expect("paper")).is_some()
    }

    #[test]
    fn what_comes_back_changed_is_found() {
        let change =
            |trip: &mut Option<(Answer, Guarded<u8>)>| trip.as_mut().expect("a way back").1.inner_mut()[0] ^= 1;
        assert!(round_trips().count() > 0);
        for case in round_trips() {
            assert!(!breaks_law(&case, |_| {}));
            assert!(breaks_law(&case, |pages| change(&mut pages.back)));
            assert!(breaks_law(&case, |pages| change(&mut pages.again)));
        }
    }

    #[test]
    fn misprint_refused_elsewhere_is_found() {
        let is_misprinted = |case: &Case| case.paper.as_ref().is_some_and(|paper| paper.misprint.is_some());
        let cases: Vec<Case> = (0..800).map(|number| Case::new(6, number)).filter(is_misprinted).collect();
        assert!(!cases.is_empty());
        for case in cases {
            assert!(!breaks_law(&case, |_| {}));
            assert!(breaks_law(&case, |pages| pages.read.first = 31));
            assert!(breaks_law(&case, |pages| pages.read.second += 1));
        }
    }
}
