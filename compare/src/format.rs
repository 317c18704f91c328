//! The records of a program file.
//!
//!   record       kind 1, body by kind
//!   declaration  file 1, first 2, last 2
//!   immediate    four words of 4
//!   destination  file 1, index 2, mask 1
//!   source       file 1, index 2, swizzle 1, modifier 1
//!
//! Numbers are little-endian.

use crate::kinds;

pub const LONGEST_FILE: usize = 65_536;

/// The register files by number.
pub const CONST: u8 = 1;
pub const IN: u8 = 2;
pub const OUT: u8 = 3;
pub const TEMP: u8 = 4;
pub const ADDR: u8 = 5;
pub const IMM: u8 = 6;
pub const MEM: u8 = 7;

/// How many registers a file that can be declared has; 0 for the other numbers.
pub fn file_size(file: u8) -> usize {
    match file {
        CONST => 1024,
        IN | OUT => 32,
        TEMP => 256,
        ADDR | MEM => 1,
        _ => 0,
    }
}

/// "4 per destination plus 5 per source for instructions"; nothing for an unknown kind.
pub fn body_length(kind: u8) -> Option<usize> {
    match kind {
        kinds::DECLARATION => Some(5),
        kinds::IMMEDIATE => Some(16),
        _ => kinds::instruction(kind).map(|kind| 4 * kind.destinations + 5 * kind.sources),
    }
}

/// A record and where it begins.
#[derive(Clone, Copy)]
pub struct Record<'a> {
    pub place: usize,
    pub kind: u8,
    pub body: &'a [u8],
}

#[derive(Clone, Copy, PartialEq, Debug)]
pub enum Broken {
    UnknownKind,
    Cut,
}

/// The record that begins at a place inside the file.
pub fn record_at(file: &[u8], place: usize) -> Result<Record<'_>, Broken> {
    let kind = file[place];
    let length = body_length(kind).ok_or(Broken::UnknownKind)?;
    let body = file.get(place + 1..place + 1 + length).ok_or(Broken::Cut)?;
    Ok(Record { place, kind, body })
}

/// A part of the caller's file.
#[repr(C)]
#[derive(Clone, Copy, PartialEq, Eq, Debug)]
pub struct Part {
    pub start: usize,
    pub length: usize,
}

/// Record n, "walking by lengths alone": what stands in the records, END among them, does not matter.
pub fn record(file: &[u8], n: usize) -> Part {
    let none = Part { start: file.len(), length: 0 };
    if file.len() > LONGEST_FILE {
        return none;
    }
    let mut place = 0;
    let mut passed = 0;
    while place < file.len() {
        let Ok(record) = record_at(file, place) else { return none };
        let length = 1 + record.body.len();
        if passed == n {
            return Part { start: place, length };
        }
        place += length;
        passed += 1;
    }
    none
}

#[derive(Clone, Copy, PartialEq, Debug)]
pub struct Declaration {
    pub file: u8,
    pub first: u16,
    pub last: u16,
}

#[derive(Clone, Copy, PartialEq, Debug)]
pub struct Destination {
    pub file: u8,
    pub index: u16,
    pub mask: u8,
}

#[derive(Clone, Copy, PartialEq, Debug)]
pub struct Source {
    pub file: u8,
    pub index: u16,
    pub swizzle: u8,
    pub modifier: u8,
}

impl Source {
    pub fn is_negated(&self) -> bool {
        self.modifier % 2 == 1
    }

    /// The component of ADDR[0] that is added to the index, if any.
    pub fn address(&self) -> Option<usize> {
        (self.modifier as usize / 2).checked_sub(1)
    }

    /// The component that the swizzle selects for component i.
    pub fn selects(&self, i: usize) -> usize {
        (self.swizzle as usize >> (2 * i)) & 3
    }
}

/// An instruction with its operands read.
#[derive(Clone, PartialEq, Debug)]
pub struct Instruction {
    pub place: usize,
    pub kind: u8,
    pub destination: Option<Destination>,
    pub sources: Vec<Source>,
}

fn number(bytes: &[u8]) -> u16 {
    u16::from_le_bytes([bytes[0], bytes[1]])
}

impl Record<'_> {
    pub fn is_instruction(&self) -> bool {
        kinds::instruction(self.kind).is_some()
    }

    pub fn declaration(&self) -> Declaration {
        Declaration { file: self.body[0], first: number(&self.body[1..3]), last: number(&self.body[3..5]) }
    }

    pub fn immediate(&self) -> [u32; 4] {
        std::array::from_fn(|i| u32::from_le_bytes(self.body[4 * i..4 * i + 4].try_into().expect("four bytes")))
    }

    pub fn instruction(&self) -> Instruction {
        let kind = kinds::instruction(self.kind).expect("an instruction");
        let (destinations, sources) = self.body.split_at(4 * kind.destinations);
        let destination = (kind.destinations == 1).then(|| Destination {
            file: destinations[0],
            index: number(&destinations[1..3]),
            mask: destinations[3],
        });
        let source = |b: &[u8]| Source { file: b[0], index: number(&b[1..3]), swizzle: b[3], modifier: b[4] };
        let sources = sources.chunks(5).map(source).collect();
        Instruction { place: self.place, kind: self.kind, destination, sources }
    }
}
