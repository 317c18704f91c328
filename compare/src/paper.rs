//! What a case has for printing and reading: a listing, good, damaged or no listing at all, and two outputs.

use crate::damage;
use crate::format::{record_at, LONGEST_FILE};
use crate::kinds;
use crate::misprint::{misprint, Line, Misprint};
use crate::printout::{listing, spelled, widths};
use crate::random::Random;

pub struct Paper {
    pub text: Vec<u8>,
    /// The first misprint of a listing that was damaged with aim, and the byte where its line begins.
    pub misprint: Option<(Misprint, usize)>,
    /// Lent for printing the case's file and for reading the text.
    pub outputs: [Vec<u8>; 2],
}

impl Paper {
    pub fn new(random: &mut Random, file: &[u8]) -> Paper {
        let mut listing = Vec::from(listing(file));
        let printed = listing.len();
        let (text, misprint) = match random.below(1000) {
            0..=399 => (listing, None),
            400..=749 => misprinted(random, &listing),
            750..=849 => {
                damage::damage_bytes(random, &mut listing);
                (listing, None)
            }
            850..=899 => ([listing, rest(file)].concat(), None),
            900..=959 => (any_lines(random), None),
            960..=995 => ((0..random.below(30)).map(|_| random.next() as u8).collect(), None),
            _ => long_listing(random),
        };
        let read = spelled(&text).map_or(text.len() / 3, |file| file.len());
        Paper { text, misprint, outputs: [printed, read].map(|needed| output(random, needed)) }
    }
}

type Misprinted = (Vec<u8>, Option<(Misprint, usize)>);

fn misprinted(random: &mut Random, listing: &[u8]) -> Misprinted {
    let mut lines: Vec<Line> = listing.split_inclusive(|&byte| byte == b'\n').map(Line::from).collect();
    let misprint = misprint(random, &mut lines);
    (lines.concat(), Some(misprint))
}

/// A line of the bytes from the first record on that is unknown or cut, a number for each.
fn rest(file: &[u8]) -> Line {
    let mut place = 0;
    while place < file.len() {
        let Ok(record) = record_at(file, place) else { break };
        place += 1 + record.body.len();
    }
    let numbers: Vec<String> = file[place..].iter().take(30).map(u8::to_string).collect();
    (numbers.join(" ") + "\n").into()
}

/// Lines of any numbers, mostly as many as the kind wants.
fn any_lines(random: &mut Random) -> Line {
    let mut text = String::new();
    for _ in 0..random.between(1, 4) {
        let kind =
            if random.chance(80) { kinds::ALL[random.below(kinds::ALL.len())].byte } else { random.next() as u8 };
        text += &kind.to_string();
        for width in widths(kind).unwrap_or(&[1, 1, 1]) {
            let bits = if random.chance(90) { 8 * width } else { 32 };
            text += &format!(" {}", random.word() >> (32 - bits));
        }
        text += "\n";
    }
    text.into()
}

/// The listing of a file of about the greatest length, seldom of its marks alone, at times with a misprint.
fn long_listing(random: &mut Random) -> Misprinted {
    let length = random.between(LONGEST_FILE - 1, LONGEST_FILE + 2);
    let immediates = if random.chance(90) { random.between(3000, 3800) } else { 0 };
    let marks = length - 17 * immediates;
    let listing = [b"2 0 0 0 0\n".repeat(immediates), b"128\n".repeat(marks)].concat();
    match random.chance(30) {
        true => misprinted(random, &listing),
        false => (listing, None),
    }
}

/// An output that is exact, longer, a byte short, shorter or empty; bytes beside each other are different.
fn output(random: &mut Random, needed: usize) -> Vec<u8> {
    let length = match random.below(20) {
        0..=7 => needed,
        8..=12 => needed + random.between(1, 9),
        13..=16 => needed.saturating_sub(1),
        17 | 18 => random.below(needed + 1),
        _ => 0,
    };
    let start = random.next() as u8;
    (0..length).map(|i| start.wrapping_add((i as u8).wrapping_mul(0x9D))).collect()
}
