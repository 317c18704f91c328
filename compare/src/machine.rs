//! Registers and memory, and what one instruction does to them.

use crate::check::Program;
use crate::format::*;
use crate::kinds::*;
use crate::words;

/// Where the files lie in the lent register words.
pub const OUT_WORDS: usize = 0;
pub const TEMP_WORDS: usize = 128;
pub const ADDR_WORDS: usize = 1152;
pub const REGISTER_WORDS: usize = 1156;

type Register = [u32; 4];

pub struct Machine<'a> {
    program: &'a Program,
    inputs: &'a [u32],
    constants: &'a [u32],
    memory: &'a mut [u32],
    out: [Register; 32],
    temp: [Register; 256],
    addr: Register,
}

impl<'a> Machine<'a> {
    /// A machine with all registers 0.
    pub fn new(program: &'a Program, inputs: &'a [u32], constants: &'a [u32], memory: &'a mut [u32]) -> Machine<'a> {
        Machine { program, inputs, constants, memory, out: [[0; 4]; 32], temp: [[0; 4]; 256], addr: [0; 4] }
    }

    /// "Four words a register: OUT i from word 4i, TEMP i from 128+4i, ADDR from 1152"
    pub fn lay_out(&self, registers: &mut [u32]) {
        registers[OUT_WORDS..TEMP_WORDS].copy_from_slice(self.out.as_flattened());
        registers[TEMP_WORDS..ADDR_WORDS].copy_from_slice(self.temp.as_flattened());
        registers[ADDR_WORDS..REGISTER_WORDS].copy_from_slice(&self.addr);
    }

    /// The four words of a source, indexed, swizzled and negated.
    pub fn source(&self, source: &Source) -> Register {
        let register = self.register(source);
        std::array::from_fn(|i| {
            let word = register[source.selects(i)];
            if source.is_negated() {
                word.wrapping_neg()
            } else {
                word
            }
        })
    }

    /// "An indirect index is index plus ADDR as a signed number; a negative or undeclared sum reads 0."
    fn register(&self, source: &Source) -> Register {
        let mut index = source.index as i64;
        if let Some(component) = source.address() {
            index += self.addr[component] as i32 as i64;
            if !self.program.declared.has(source.file, index) {
                return [0; 4];
            }
        }
        let index = index as usize;
        match source.file {
            CONST => lent_register(self.constants, index),
            IN => lent_register(self.inputs, index),
            TEMP => self.temp[index],
            _ => self.program.immediates[index],
        }
    }

    /// "All sources are read before any write"
    pub fn carry_out(&mut self, instruction: &Instruction) {
        let sources: [Register; 4] =
            std::array::from_fn(|i| instruction.sources.get(i).map_or([0; 4], |source| self.source(source)));
        let destination = instruction.destination.expect("a kind with a destination");
        let kind = instruction.kind;
        if kind == STORE {
            return self.store(sources[0][0], &sources[1], destination.mask);
        }
        let result = match kind {
            LOAD => self.load(sources[0][0], destination.mask),
            _ if is_atomic(kind) => [self.atomic(kind, &sources); 4],
            _ => compute(kind, instruction.sources.len(), &sources),
        };
        self.write(&destination, result);
    }

    /// "unmasked components stay"
    fn write(&mut self, destination: &Destination, result: Register) {
        let index = destination.index as usize;
        let register = match destination.file {
            OUT => &mut self.out[index],
            TEMP => &mut self.temp[index],
            _ => &mut self.addr,
        };
        for i in masked(destination.mask) {
            register[i] = result[i];
        }
    }

    /// The word at a byte address, if it is aligned and inside.
    fn word(&mut self, address: u64) -> Option<&mut u32> {
        if !address.is_multiple_of(4) {
            return None;
        }
        self.memory.get_mut((address / 4) as usize)
    }

    fn load(&mut self, address: u32, mask: u8) -> Register {
        let mut result = [0; 4];
        for i in masked(mask) {
            result[i] = self.word(address as u64 + 4 * i as u64).map_or(0, |word| *word);
        }
        result
    }

    fn store(&mut self, address: u32, value: &Register, mask: u8) {
        for i in masked(mask) {
            if let Some(word) = self.word(address as u64 + 4 * i as u64) {
                *word = value[i];
            }
        }
    }

    /// The old word, "misaligned or outside, 0".
    fn atomic(&mut self, kind: u8, sources: &[Register; 4]) -> u32 {
        match self.word(sources[0][0] as u64) {
            Some(word) => {
                let old = *word;
                *word = words::atomic(kind, old, sources[1][0], sources[2][0]);
                old
            }
            None => 0,
        }
    }
}

fn lent_register(words: &[u32], index: usize) -> Register {
    std::array::from_fn(|i| words[4 * index + i])
}

fn masked(mask: u8) -> impl Iterator<Item = usize> {
    (0..4).filter(move |i| mask >> i & 1 == 1)
}

/// The result of a kind that touches no memory, in all four components.
fn compute(kind: u8, sources: usize, s: &[Register; 4]) -> Register {
    if is_pair(kind) || is_comparison64(kind) {
        return compute64(kind, s);
    }
    std::array::from_fn(|i| match sources {
        1 => words::unary(kind, s[0][i]),
        2 => words::binary(kind, s[0][i], s[1][i]),
        3 => words::ternary(kind, s[0][i], s[1][i], s[2][i]),
        _ => words::bfi(s[0][i], s[1][i], s[2][i], s[3][i]),
    })
}

/// "64-bit values: x low, y high; z low, w high." Comparisons are wanted "in x and z" alone.
fn compute64(kind: u8, s: &[Register; 4]) -> Register {
    let mut result = [0; 4];
    for pair in 0..2 {
        let value = |register: &Register| (register[2 * pair + 1] as u64) << 32 | register[2 * pair] as u64;
        let (a, b) = (value(&s[0]), value(&s[1]));
        let c = match kind {
            I64ABS..=I64SSG => words::unary64(kind, a),
            // "from src1.x for xy and src1.y for zw"
            U64SHL..=U64SHR => words::shift64(kind, a, s[1][pair]),
            U64ADD..=I64MAX => words::binary64(kind, a, b),
            _ => words::comparison64(kind, a, b) as u64,
        };
        result[2 * pair] = c as u32;
        result[2 * pair + 1] = (c >> 32) as u32;
    }
    result
}
