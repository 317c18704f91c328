//! A printer and reader with one fault, which the comparison has to find.

use super::*;
use crate::check::check;
use crate::printout::{listing, spelled, widths};

#[derive(Clone, Copy, PartialEq, Debug)]
pub enum PageFault {
    PrintsFieldsBackwards,
    ExactIsShort,
    WritesWhatFits,
    WritesPastTheLength,
    ShortOutputFirst,
    MalformedLineLast,
    PlaceInTheListing,
    CutsNumbers,
    ReadsLeadingZeros,
    ReadsTwoSpaces,
    ReadsTabs,
    ReadsCarriageReturns,
    ReadsEmptyLines,
    ReadsUnendedLine,
}

use PageFault::*;

pub const ALL: [PageFault; 14] = [
    PrintsFieldsBackwards,
    ExactIsShort,
    WritesWhatFits,
    WritesPastTheLength,
    ShortOutputFirst,
    MalformedLineLast,
    PlaceInTheListing,
    CutsNumbers,
    ReadsLeadingZeros,
    ReadsTwoSpaces,
    ReadsTabs,
    ReadsCarriageReturns,
    ReadsEmptyLines,
    ReadsUnendedLine,
];

pub fn print(fault: PageFault, file: &[u8], output: &mut [u8]) -> Answer {
    let listing = listing(file);
    let content = if fault == PrintsFieldsBackwards { listing.lines().map(backwards).collect() } else { listing };
    answer_to(fault, file, content.as_bytes(), output)
}

/// A line with its fields in another order.
fn backwards(line: &str) -> String {
    let mut numbers: Vec<&str> = line.split(' ').collect();
    numbers[1..].reverse();
    numbers.join(" ") + "\n"
}

pub fn read(fault: PageFault, text: &[u8], output: &mut [u8]) -> Answer {
    let text = mended(fault, text);
    match spelled(&text) {
        Ok(file) => {
            let answer = answer_to(fault, &file, &file, output);
            let is_own = answer.status == crate::runner::REFUSED && answer.first < 30;
            match fault {
                PlaceInTheListing if is_own => {
                    Answer::refused(answer.first, listing(&file[..answer.second as usize]).len() as u32)
                }
                _ => answer,
            }
        }
        Err(malformed) => {
            let before = spelled(&text[..malformed.place]).expect("good lines");
            match check(&before) {
                Err(own) if fault == MalformedLineLast => Answer::refused(own.number, own.place as u32),
                _ => Answer::refused(30, malformed.place as u32),
            }
        }
    }
}

/// The answer to a program, and what is delivered for it if it is accepted.
fn answer_to(fault: PageFault, file: &[u8], content: &[u8], output: &mut [u8]) -> Answer {
    let is_exact = output.len() == content.len();
    let is_short = output.len() < content.len() || fault == ExactIsShort && is_exact;
    let length = content.len().min(output.len());
    match check(file) {
        Err(own) if fault != ShortOutputFirst || !is_short => Answer::refused(own.number, own.place as u32),
        _ if is_short => {
            if fault == WritesWhatFits {
                output.copy_from_slice(&content[..length]);
            }
            Answer::refused(31, 0)
        }
        _ => {
            output[..length].copy_from_slice(content);
            if fault == WritesPastTheLength {
                output[length..].fill(0);
            }
            Answer::done(length as u32)
        }
    }
}

/// What a reader that takes more than it may reads in the place of a text.
fn mended(fault: PageFault, text: &[u8]) -> Vec<u8> {
    match fault {
        CutsNumbers => text.split_inclusive(|&byte| byte == b'\n').flat_map(with_numbers_cut).collect(),
        ReadsLeadingZeros => {
            without(text, |before, zero, after| zero == b'0' && !before.is_ascii_digit() && after.is_ascii_digit())
        }
        ReadsTwoSpaces => without(text, |before, space, _| [before, space] == *b"  "),
        ReadsTabs => text.iter().map(|&byte| if byte == b'\t' { b' ' } else { byte }).collect(),
        ReadsCarriageReturns => without(text, |_, carriage_return, after| [carriage_return, after] == *b"\r\n"),
        ReadsEmptyLines => without(text, |before, line_feed, _| [before, line_feed] == *b"\n\n"),
        ReadsUnendedLine if !text.ends_with(b"\n") && !text.is_empty() => [text, b"\n"].concat(),
        _ => text.to_vec(),
    }
}

/// A text without the bytes that this is said of, given the bytes beside them; a line feed stands before and after the text.
fn without(text: &[u8], is_needless: impl Fn(u8, u8, u8) -> bool) -> Vec<u8> {
    let framed = [b"\n", text, b"\n"].concat();
    framed.windows(3).filter(|bytes| !is_needless(bytes[0], bytes[1], bytes[2])).map(|bytes| bytes[1]).collect()
}

/// A line with each number that is too large for its field cut to it.
fn with_numbers_cut(line: &[u8]) -> Vec<u8> {
    let numbers = |line: &str| line.split(' ').map(|number| number.parse().ok()).collect::<Option<Vec<u128>>>();
    let numbers = std::str::from_utf8(line).ok().and_then(|line| numbers(line.strip_suffix('\n')?));
    let Some((&kind, fields)) = numbers.as_deref().and_then(<[u128]>::split_first) else { return line.to_vec() };
    let Some(widths) = u8::try_from(kind).ok().and_then(widths) else { return line.to_vec() };
    let cut = fields.iter().zip(widths).map(|(field, &width)| field % (1 << (8 * width)));
    let line: Vec<String> = [kind].into_iter().chain(cut).map(|number| number.to_string()).collect();
    (line.join(" ") + "\n").into()
}
