//! Printing and reading back (02, W1): "One line per record: the kind, then its fields in file order, all decimal, no leading zeros,
//! single spaces, a line feed after each."

use crate::check::{check, Refusal};
use crate::format::{record_at, Record};
use crate::kinds;
use std::fmt::Write;

/// The bytes that each field takes, in file order.
const DECLARATION: [usize; 3] = [1, 2, 2];
const IMMEDIATE: [usize; 4] = [4; 4];
/// One destination, then four sources.
const OPERANDS: [usize; 19] = [1, 2, 1, 1, 2, 1, 1, 1, 2, 1, 1, 1, 2, 1, 1, 1, 2, 1, 1];

/// The widths of a kind's fields; nothing for an unknown kind.
pub fn widths(kind: u8) -> Option<&'static [usize]> {
    match kind {
        kinds::DECLARATION => Some(&DECLARATION),
        kinds::IMMEDIATE => Some(&IMMEDIATE),
        _ => kinds::instruction(kind).map(|kind| &OPERANDS[3 - 3 * kind.destinations..3 + 4 * kind.sources]),
    }
}

/// Adds the line of a record.
fn print_record(text: &mut String, record: &Record) {
    *text += &record.kind.to_string();
    let mut rest = record.body;
    for &width in widths(record.kind).expect("a known kind") {
        let (field, after) = rest.split_at(width);
        let number = field.iter().rev().fold(0u32, |number, &byte| number << 8 | byte as u32);
        write!(text, " {number}").expect("a string takes it");
        rest = after;
    }
    text.push('\n');
}

/// The lines of a file's records, up to the first that is unknown or cut.
pub fn listing(file: &[u8]) -> String {
    let (mut text, mut place) = (String::new(), 0);
    while place < file.len() {
        let Ok(record) = record_at(file, place) else { break };
        print_record(&mut text, &record);
        place += 1 + record.body.len();
    }
    text
}

/// The value of digits without a needless zero before them. It stops at the largest u64, which no field holds either.
fn number(digits: &[u8]) -> Option<u64> {
    let is_decimal = !digits.is_empty() && digits.iter().all(u8::is_ascii_digit);
    let has_needless_zero = digits.len() > 1 && digits[0] == b'0';
    let value =
        || digits.iter().fold(0u64, |value, digit| value.saturating_mul(10).saturating_add((digit - b'0') as u64));
    (is_decimal && !has_needless_zero).then(value)
}

/// Adds the record of a line, which ends with its line feed; nothing if it is malformed.
fn read_line(file: &mut Vec<u8>, line: &[u8]) -> Option<()> {
    let mut numbers = line.strip_suffix(b"\n")?.split(|&byte| byte == b' ').map(number);
    let kind = u8::try_from(numbers.next()??).ok()?;
    file.push(kind);
    for &width in widths(kind)? {
        let bytes = numbers.next()??.to_le_bytes();
        let (field, above) = bytes.split_at(width);
        if above.iter().any(|&byte| byte != 0) {
            return None;
        }
        file.extend(field);
    }
    numbers.next().is_none().then_some(())
}

/// The file that a listing spells. "30 malformed line (.. place: its first byte)"
pub fn spelled(text: &[u8]) -> Result<Vec<u8>, Refusal> {
    let (mut file, mut place) = (vec![], 0);
    for line in text.split_inclusive(|&byte| byte == b'\n') {
        read_line(&mut file, line).ok_or(Refusal { number: 30, place })?;
        place += line.len();
    }
    Ok(file)
}

/// "a lent output is written from its front ..; the result gives the length, and bytes past it stay."
fn deliver(content: &[u8], output: &mut [u8]) -> Result<usize, Refusal> {
    let front = output.get_mut(..content.len()).ok_or(Refusal { number: 31, place: 0 })?;
    front.copy_from_slice(content);
    Ok(content.len())
}

/// "in printing, the program's own, then 31"
pub fn print(file: &[u8], output: &mut [u8]) -> Result<usize, Refusal> {
    check(file)?;
    deliver(listing(file).as_bytes(), output)
}

/// "in reading, 30 .., then the read program's own, then 31 output short"
pub fn read(text: &[u8], output: &mut [u8]) -> Result<usize, Refusal> {
    let file = spelled(text)?;
    check(&file)?;
    deliver(&file, output)
}
