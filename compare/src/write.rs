//! Writing records: the other direction of `format`.

use crate::kinds;

/// The swizzle that leaves every component in its place.
pub const STRAIGHT: u8 = 0xE4;

pub fn declaration(file: u8, first: u16, last: u16) -> Vec<u8> {
    let mut record = vec![kinds::DECLARATION, file];
    record.extend(first.to_le_bytes());
    record.extend(last.to_le_bytes());
    record
}

pub fn immediate(words: [u32; 4]) -> Vec<u8> {
    let mut record = vec![kinds::IMMEDIATE];
    record.extend(words.iter().flat_map(|word| word.to_le_bytes()));
    record
}

pub fn destination(file: u8, index: u16, mask: u8) -> [u8; 4] {
    let [low, high] = index.to_le_bytes();
    [file, low, high, mask]
}

pub fn source(file: u8, index: u16, swizzle: u8, modifier: u8) -> [u8; 5] {
    let [low, high] = index.to_le_bytes();
    [file, low, high, swizzle, modifier]
}

/// A source with no modifier and no swizzle.
pub fn direct(file: u8, index: u16) -> [u8; 5] {
    source(file, index, STRAIGHT, 0)
}

pub fn instruction(kind: u8, destination: [u8; 4], sources: &[[u8; 5]]) -> Vec<u8> {
    let mut record = vec![kind];
    record.extend(destination);
    record.extend(sources.as_flattened());
    record
}

/// A record of UIF, SWITCH or CASE.
pub fn control(kind: u8, source: [u8; 5]) -> Vec<u8> {
    let mut record = vec![kind];
    record.extend(source);
    record
}

/// A record of a kind without operands.
pub fn mark(kind: u8) -> Vec<u8> {
    vec![kind]
}

pub fn hex(bytes: &[u8]) -> String {
    bytes.iter().map(|byte| format!("{byte:02X}")).collect()
}

pub fn from_hex(text: &str) -> Vec<u8> {
    let digits: Vec<char> = text.chars().filter(|c| !c.is_whitespace()).collect();
    let byte = |pair: &[char]| u8::from_str_radix(&pair.iter().collect::<String>(), 16).expect("hex digits");
    digits.chunks(2).map(byte).collect()
}
