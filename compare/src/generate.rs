//! Random accepted programs: the head of declarations and immediates, operands, and instructions without blocks.

use crate::format::*;
use crate::kinds::{self, *};
use crate::random::Random;
use crate::write;

/// A program as a list of records.
pub struct Draft {
    pub records: Vec<Vec<u8>>,
    /// How many of the records are declarations and immediates.
    pub head: usize,
}

impl Draft {
    pub fn bytes(&self) -> Vec<u8> {
        self.records.concat()
    }
}

/// The immediate every program begins with. Loops count with it, and selectors are likely to meet it.
pub const SMALL: [u32; 4] = [0, 1, 2, 3];

/// The swizzle zwxy, which leaves pairs whole.
const CROSSED: u8 = 0b01_00_11_10;

pub struct Maker<'a> {
    pub random: &'a mut Random,
    /// The registers declared so far, by file.
    declared: [Vec<u16>; 8],
    pub immediates: Vec<[u32; 4]>,
    pub records: Vec<Vec<u8>>,
    pub head: usize,
    /// The kinds that opened the blocks open at present.
    pub open: Vec<u8>,
    /// No statement is begun when this many instructions are there.
    pub limit: usize,
    /// The kinds with a destination that the declarations allow.
    usable: Vec<u8>,
}

impl<'a> Maker<'a> {
    /// A maker with the head of its program made.
    pub fn new(random: &'a mut Random, limit: usize) -> Maker<'a> {
        let (declared, immediates, records) = (Default::default(), vec![], vec![]);
        let mut maker = Maker { random, declared, immediates, records, head: 0, open: vec![], limit, usable: vec![] };
        maker.make_head();
        maker
    }

    pub fn finish(mut self) -> Draft {
        self.mark(END);
        Draft { records: self.records, head: self.head }
    }

    pub fn instructions(&self) -> usize {
        self.records.len() - self.head
    }

    pub fn mark(&mut self, kind: u8) {
        self.records.push(write::mark(kind));
    }

    fn make_head(&mut self) {
        self.make_immediate(SMALL);
        let likely = [(TEMP, 95), (OUT, 80), (IN, 60), (CONST, 50), (ADDR, 50), (MEM, 50)];
        for (file, percent) in likely {
            if self.random.chance(percent) {
                self.declare(file);
            }
            if self.random.chance(50) {
                let words = self.immediate_words();
                self.make_immediate(words);
            }
        }
        self.head = self.records.len();
        let is_usable = |kind: &&Kind| match kind.byte {
            UARL => !self.declared[ADDR as usize].is_empty(),
            byte if is_memory(byte) && self.declared[MEM as usize].is_empty() => false,
            STORE => true,
            _ => {
                kind.destinations == 1
                    && !(self.declared[OUT as usize].is_empty() && self.declared[TEMP as usize].is_empty())
            }
        };
        self.usable = kinds::ALL.iter().filter(is_usable).map(|kind| kind.byte).collect();
    }

    fn make_immediate(&mut self, words: [u32; 4]) {
        self.immediates.push(words);
        self.records.push(write::immediate(words));
    }

    /// Byte addresses, mostly aligned and low, some at the end of all addresses; 64-bit values at their bounds; or
    /// words of any kind.
    fn immediate_words(&mut self) -> [u32; 4] {
        const LEAST: [u32; 2] = [0, 0x8000_0000];
        const MINUS_ONE: [u32; 2] = [0xFFFF_FFFF; 2];
        match self.random.below(10) {
            0..=3 => std::array::from_fn(|_| match self.random.below(10) {
                0 => (4 * self.random.between(1, 4) as u32).wrapping_neg(),
                1 => self.random.word(),
                _ => 4 * self.random.below(24) as u32,
            }),
            4 | 5 => {
                let [a, b] = [0; 2].map(|_| self.random.pick(&[LEAST, MINUS_ONE, [0, 0], [1, 0]]));
                [a[0], a[1], b[0], b[1]]
            }
            _ => std::array::from_fn(|_| self.random.word()),
        }
    }

    /// One to three ranges of a file, with gaps, mostly at its beginning.
    fn declare(&mut self, file: u8) {
        let size = file_size(file);
        let (gap, longest) = if self.random.chance(4) { (300, 200) } else { (3, 6) };
        let mut next = if self.random.chance(70) { 0 } else { self.random.below(gap + 1) };
        for _ in 0..self.random.between(1, 3) {
            let (first, last) = (next, next + self.random.below(longest));
            if first >= size {
                break;
            }
            let last = last.min(size - 1);
            self.declared[file as usize].extend(first as u16..=last as u16);
            self.records.push(write::declaration(file, first as u16, last as u16));
            next = last + 1 + self.random.below(gap);
        }
        if self.declared[file as usize].is_empty() {
            self.declared[file as usize].push(0);
            self.records.push(write::declaration(file, 0, 0));
        }
    }

    /// A declared register of a file, if it has one.
    pub fn register(&mut self, file: u8) -> Option<u16> {
        let registers = &self.declared[file as usize];
        (!registers.is_empty()).then(|| registers[self.random.below(registers.len())])
    }

    fn swizzle(&mut self) -> u8 {
        match self.random.below(10) {
            0..=3 => write::STRAIGHT,
            4 => CROSSED,
            5 | 6 => 0b0101_0101 * self.random.below(4) as u8,
            _ => self.random.next() as u8,
        }
    }

    /// A source that is allowed for a kind.
    pub fn source(&mut self, kind: u8) -> [u8; 5] {
        let file = self.random.pick(&[TEMP, TEMP, TEMP, IN, IN, IMM, IMM, IMM, CONST]);
        let swizzle = self.swizzle();
        let negate = (may_negate(kind) && self.random.chance(20)) as u8;
        match self.register(file) {
            Some(_) if self.may_be_indirect(file) => {
                let index = if self.random.chance(95) { self.random.below(12) } else { self.random.below(65_536) };
                write::source(file, index as u16, swizzle, negate + 2 * self.random.between(1, 4) as u8)
            }
            Some(index) => write::source(file, index, swizzle, negate),
            None => write::source(IMM, self.random.below(self.immediates.len()) as u16, swizzle, negate),
        }
    }

    fn may_be_indirect(&mut self, file: u8) -> bool {
        matches!(file, CONST | TEMP) && !self.declared[ADDR as usize].is_empty() && self.random.chance(30)
    }

    /// A source whose words are likely to be small: an immediate or an input.
    pub fn small_source(&mut self) -> [u8; 5] {
        let swizzle = self.swizzle();
        match self.register(IN) {
            Some(index) if self.random.chance(60) => write::source(IN, index, swizzle, 0),
            _ => write::source(IMM, self.random.below(self.immediates.len()) as u16, swizzle, 0),
        }
    }

    fn destination(&mut self, kind: u8) -> [u8; 4] {
        let mask = match kind {
            _ if is_pair(kind) => self.random.pick(&[3, 12, 15]),
            _ if is_comparison64(kind) => self.random.pick(&[1, 4, 5]),
            _ if self.random.chance(40) => 15,
            _ => self.random.between(1, 15) as u8,
        };
        let file = match kind {
            UARL => ADDR,
            STORE => MEM,
            _ if self.random.chance(75) => TEMP,
            _ => OUT,
        };
        match self.register(file) {
            Some(index) => write::destination(file, index, mask),
            None => {
                let other = if file == TEMP { OUT } else { TEMP };
                write::destination(other, self.register(other).expect("one of both is declared"), mask)
            }
        }
    }

    /// A kind of the usable ones; ADDR and memory are used more than their share.
    fn kind(&mut self) -> u8 {
        let favoured: Vec<u8> = match self.random.below(10) {
            0 => vec![UARL],
            1 | 2 => self.usable.iter().copied().filter(|&kind| is_memory(kind)).collect(),
            _ => vec![],
        };
        let favoured: Vec<u8> = favoured.into_iter().filter(|kind| self.usable.contains(kind)).collect();
        let from = if favoured.is_empty() { &self.usable } else { &favoured };
        from[self.random.below(from.len())]
    }

    /// An instruction with a destination, or NOP where nothing can be written.
    pub fn make_instruction(&mut self) {
        if self.usable.is_empty() {
            return self.mark(NOP);
        }
        let kind = self.kind();
        let destination = self.destination(kind);
        let sources = kinds::instruction(kind).expect("a known kind").sources;
        let mut list: Vec<[u8; 5]> = (0..sources).map(|_| self.source(kind)).collect();
        if (kind == UARL || is_memory(kind)) && self.random.chance(70) {
            list[0] = self.small_source();
        }
        self.records.push(write::instruction(kind, destination, &list));
    }
}
