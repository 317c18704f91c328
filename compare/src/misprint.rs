//! Damage to listings: each way in which a line can be malformed.

use crate::format::body_length;
use crate::printout::widths;
use crate::random::Random;

macro_rules! misprints {
    ($($name:ident)*) => {
        #[derive(Clone, Copy, PartialEq, Debug)]
        pub enum Misprint {
            $($name,)*
        }
        pub const ALL: &[Misprint] = &[$($name,)*];
    };
}

misprints! {
    LeadingZero TooLarge UnknownKind LargeKind NumberMissing NumberTooMany NumberEmpty Sign
    TwoSpaces SpaceBefore SpaceAfter Tab CarriageReturn ZeroByte NotAscii OtherCharacter
    EmptyLine SplitLine JoinedLines NoLineFeed
}

use Misprint::*;

/// A line as its bytes, the line feed among them.
pub type Line = Vec<u8>;

impl Misprint {
    /// Whether a line of a listing can be damaged so.
    fn fits(self, lines: &[Line], at: usize) -> bool {
        let is_last = at + 1 == lines.len();
        match self {
            TooLarge | NumberMissing | TwoSpaces | Tab | SplitLine => lines[at].contains(&b' '),
            JoinedLines => !is_last,
            NoLineFeed => is_last,
            _ => true,
        }
    }

    /// Damages a line that has been good, so that it is malformed from its first byte.
    fn apply(self, random: &mut Random, lines: &mut Vec<Line>, at: usize) {
        match self {
            EmptyLine => lines.insert(at, b"\n".to_vec()),
            JoinedLines => *lines[at].last_mut().expect("a line feed") = b' ',
            NoLineFeed => drop(lines[at].pop()),
            TwoSpaces => put_at_space(random, &mut lines[at], b"  "),
            Tab => put_at_space(random, &mut lines[at], b"\t"),
            SplitLine => put_at_space(random, &mut lines[at], b"\n"),
            SpaceBefore => lines[at].insert(0, b' '),
            SpaceAfter => put_at_end(&mut lines[at], b' '),
            CarriageReturn => put_at_end(&mut lines[at], b'\r'),
            ZeroByte => put_anywhere(random, &mut lines[at], &[0]),
            NotAscii => {
                let other: &[&[u8]] = &[b"\xC2\xA0", b"\xD9\xA3", b"\xEF\xBB\xBF", b"\xB1", b"\x80", b"\xFF"];
                let other = random.pick(other);
                put_anywhere(random, &mut lines[at], other)
            }
            OtherCharacter => {
                let other = random.pick(b"/:;.,'_#xAaeE*\x01\x0B\x0C\x1F\x7F");
                put_anywhere(random, &mut lines[at], &[other])
            }
            _ => {
                let mut numbers: Vec<Line> = lines[at].trim_ascii_end().split(|&b| b == b' ').map(Vec::from).collect();
                self.change_numbers(random, &mut numbers);
                lines[at] = [numbers.join(&b' '), b"\n".to_vec()].concat();
            }
        }
    }

    fn change_numbers(self, random: &mut Random, numbers: &mut Vec<Line>) {
        let any = random.below(numbers.len());
        match self {
            LeadingZero => drop(numbers[any].splice(0..0, vec![b'0'; random.pick(&[1, 1, 2, 60])])),
            UnknownKind => numbers[0] = unknown_kind(random).to_string().into(),
            LargeKind => numbers[0] = too_large(random, value(&numbers[0]), 1),
            NumberMissing => drop(numbers.remove(random.between(1, numbers.len() - 1))),
            NumberTooMany => {
                let more = random.word() >> random.below(32);
                numbers.insert(any + 1, more.to_string().into());
            }
            NumberEmpty => numbers[any].clear(),
            Sign => numbers[any].insert(0, random.pick(b"-+")),
            TooLarge => {
                let field = random.between(1, numbers.len() - 1);
                let width = widths(value(&numbers[0]) as u8).expect("a known kind")[field - 1];
                numbers[field] = too_large(random, value(&numbers[field]), width);
            }
            other => unreachable!("{other:?} is no change of numbers"),
        }
    }
}

/// The value of a good number.
fn value(digits: &[u8]) -> u32 {
    std::str::from_utf8(digits).ok().and_then(|digits| digits.parse().ok()).expect("a number")
}

fn unknown_kind(random: &mut Random) -> u8 {
    loop {
        let kind = random.next() as u8;
        if body_length(kind).is_none() {
            return kind;
        }
    }
}

/// A number that no field of this width holds: the least; one that is the right number where bits above 8, 16, 32, 64 or so are lost;
/// or one of 60 digits.
fn too_large(random: &mut Random, value: u32, width: usize) -> Line {
    let wraps: Vec<usize> = [8, 16, 32, 64, 96].into_iter().filter(|&bits| bits >= 8 * width).collect();
    let more = 1u128 << random.pick(&wraps);
    match random.below(8) {
        0 | 1 => (1u128 << (8 * width)).to_string().into(),
        2..=5 => (value as u128 + more).to_string().into(),
        6 => (value as u128 + more * random.between(1, 200) as u128).to_string().into(),
        _ => {
            let mut digits = vec![b'0' + random.between(1, 9) as u8];
            digits.extend((1..60).map(|_| b'0' + random.below(10) as u8));
            digits
        }
    }
}

/// Puts bytes in the place of one of a line's spaces.
fn put_at_space(random: &mut Random, line: &mut Line, bytes: &[u8]) {
    let spaces: Vec<usize> = (0..line.len()).filter(|&i| line[i] == b' ').collect();
    let at = random.pick(&spaces);
    line.splice(at..=at, bytes.iter().copied());
}

fn put_at_end(line: &mut Line, byte: u8) {
    line.insert(line.len() - 1, byte);
}

/// Puts bytes somewhere before the line feed, or in the place of a byte there.
fn put_anywhere(random: &mut Random, line: &mut Line, bytes: &[u8]) {
    let at = random.below(line.len());
    let taken = if at + 1 < line.len() { random.below(2) } else { 0 };
    line.splice(at..at + taken, bytes.iter().copied());
}

/// Damages a line of a listing that is good up to `end`; the misprint and the number of its line.
fn misprint_before(random: &mut Random, lines: &mut Vec<Line>, end: usize) -> (Misprint, usize) {
    let misprint = random.pick(ALL);
    let start = random.between(0, end);
    let fitting = (start..end).chain(0..start).find(|&at| misprint != EmptyLine && misprint.fits(lines, at));
    let (misprint, at) = fitting.map_or((EmptyLine, start), |at| (misprint, at));
    misprint.apply(random, lines, at);
    (misprint, at)
}

/// Damages a good listing, at times in two lines: the first of these misprints and the byte where its line begins.
pub fn misprint(random: &mut Random, lines: &mut Vec<Line>) -> (Misprint, usize) {
    let (mut first, mut at) = misprint_before(random, lines, lines.len());
    if at > 0 && random.chance(20) {
        (first, at) = misprint_before(random, lines, at);
    }
    (first, lines[..at].iter().map(Vec::len).sum())
}
