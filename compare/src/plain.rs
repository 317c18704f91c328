//! A plain bytecode interpreter, the measure of the benchmark: it decodes the file's bytes at each step, finds them
//! and its way by the prepared table, and allocates nothing while it runs. Checker and table are the second
//! interpreter's; the benchmark is about steps. It has no hint to the compiler: what is inlined is the compiler's choice, as it
//! is for the library. With the feature `inlined` its hot functions are forced inline, which Rattle has no word for.

use crate::check::{check, Program};
use crate::format::*;
use crate::kinds::*;
use crate::machine::{ADDR_WORDS, REGISTER_WORDS, TEMP_WORDS};
use crate::reading::nest;
use crate::run::Second;
use crate::runner::{Answer, Lent, Needs, Runner};
use crate::table::{self, Row};
use crate::words::*;

type Register = [u32; 4];

pub struct Plain;

impl Runner for Plain {
    fn name(&self) -> &'static str {
        if cfg!(feature = "inlined") {
            "plain, inlined"
        } else {
            "plain interpreter"
        }
    }

    fn check(&self, file: &[u8]) -> Answer {
        match check(file) {
            Ok(program) => Answer::done(program.instructions.len() as u32),
            Err(refusal) => Answer::refused(refusal.number, refusal.place as u32),
        }
    }

    fn prepare(&self, file: &[u8], _work: &mut [u32]) -> Answer {
        self.check(file)
    }

    /// For accepted programs and lent words that are long enough.
    fn run(&self, file: &[u8], lent: Lent, budget: u32) -> Answer {
        let program = check(file).expect("an accepted program");
        let rows = table::rows(&program, &nest(&program.instructions));
        lent.work[..3 * rows.len()].copy_from_slice(rows.as_flattened());
        lent.registers[..REGISTER_WORDS].fill(0);
        let (inputs, constants, registers, memory) = (lent.inputs, lent.constants, lent.registers, lent.memory);
        let (immediates, declared) = (program.immediates.as_flattened(), declared_bits(&program));
        Interpreter { file, rows: &rows, inputs, constants, immediates, declared, registers, memory }.run(budget)
    }

    fn record(&self, file: &[u8], n: usize) -> Part {
        record(file, n)
    }

    fn needs(&self, file: &[u8]) -> Needs {
        Second::new().needs(file)
    }

    fn print(&self, file: &[u8], output: &mut [u8]) -> Answer {
        Second::new().print(file, output)
    }

    fn read(&self, text: &[u8], output: &mut [u8]) -> Answer {
        Second::new().read(text, output)
    }
}

/// One bit for each register of CONST, then of TEMP.
fn declared_bits(program: &Program) -> [[u64; 16]; 2] {
    [CONST, TEMP].map(|file| {
        let mut bits = [0; 16];
        for i in (0..1024).filter(|&i| program.declared.has(file, i)) {
            bits[i as usize / 64] |= 1 << (i % 64);
        }
        bits
    })
}

struct Interpreter<'a> {
    file: &'a [u8],
    rows: &'a [Row],
    inputs: &'a [u32],
    constants: &'a [u32],
    immediates: &'a [u32],
    declared: [[u64; 16]; 2],
    registers: &'a mut [u32],
    memory: &'a mut [u32],
}

fn index(operand: &[u8]) -> usize {
    u16::from_le_bytes([operand[1], operand[2]]) as usize
}

fn register_at(words: &[u32], at: usize) -> Register {
    words[at..at + 4].try_into().expect("four words")
}

fn pairs(register: Register) -> [u64; 2] {
    [register[0] as u64 | (register[1] as u64) << 32, register[2] as u64 | (register[3] as u64) << 32]
}

/// The number of the word at a byte address and 4i; that of a misaligned one is outside.
fn word(address: u32, i: usize) -> usize {
    if address.is_multiple_of(4) {
        address as usize / 4 + i
    } else {
        usize::MAX
    }
}

/// Four words by component, written out: the arrays' own `map` is not always unrolled.
#[cfg_attr(feature = "inlined", inline(always))]
fn four(f: impl Fn(usize) -> u32) -> Register {
    [f(0), f(1), f(2), f(3)]
}

impl Interpreter<'_> {
    fn run(&mut self, budget: u32) -> Answer {
        let (file, rows) = (self.file, self.rows);
        let mut at = 0;
        let mut steps = 0;
        while steps < budget {
            steps += 1;
            let [place, jump, label] = rows[at];
            let record = &file[place as usize..];
            at = match record[0] {
                END => return Answer::done(steps),
                BRK | CONT | ELSE | ENDLOOP => jump as usize,
                NOP | ENDIF | BGNLOOP | ENDSWITCH | CASE | DEFAULT => at + 1,
                UIF if self.source(&record[1..6])[0] != 0 => at + 1,
                UIF => jump as usize,
                SWITCH => self.select(self.source(&record[1..6])[0], label as usize, jump as usize),
                kind => {
                    self.step(kind, record);
                    at + 1
                }
            };
        }
        Answer::halted(steps, at as u32)
    }

    /// Follows a SWITCH's labels to the one that is entered.
    fn select(&self, x: u32, first: usize, after: usize) -> usize {
        let mut label = first;
        while label != 0 {
            let [place, _, next] = self.rows[label];
            let record = &self.file[place as usize..];
            if record[0] == DEFAULT || self.source(&record[1..6])[0] == x {
                return label + 1;
            }
            label = next as usize;
        }
        after
    }

    #[cfg_attr(feature = "inlined", inline(always))]
    fn source(&self, operand: &[u8]) -> Register {
        let (file, swizzle, modifier) = (operand[0], operand[3] as usize, operand[4]);
        let mut i = index(operand);
        if modifier >= 2 {
            let sum = i as i64 + self.registers[ADDR_WORDS + modifier as usize / 2 - 1] as i32 as i64;
            let bits = &self.declared[(file == TEMP) as usize];
            if !(0..1024).contains(&sum) || bits[sum as usize / 64] >> (sum % 64) & 1 == 0 {
                return [0; 4];
            }
            i = sum as usize;
        }
        let register = match file {
            CONST => register_at(self.constants, 4 * i),
            IN => register_at(self.inputs, 4 * i),
            TEMP => register_at(self.registers, TEMP_WORDS + 4 * i),
            _ => register_at(self.immediates, 4 * i),
        };
        let [x, y, z, w] = four(|i| register[swizzle >> (2 * i) & 3]);
        if modifier & 1 == 1 {
            [x.wrapping_neg(), y.wrapping_neg(), z.wrapping_neg(), w.wrapping_neg()]
        } else {
            [x, y, z, w]
        }
    }

    #[cfg_attr(feature = "inlined", inline(always))]
    fn write(&mut self, record: &[u8], result: Register) {
        let start = match record[1] {
            OUT => 4 * index(&record[1..]),
            TEMP => TEMP_WORDS + 4 * index(&record[1..]),
            _ => ADDR_WORDS,
        };
        let register = &mut self.registers[start..start + 4];
        for i in 0..4 {
            if record[4] >> i & 1 == 1 {
                register[i] = result[i];
            }
        }
    }

    #[cfg_attr(feature = "inlined", inline(always))]
    fn one(&mut self, record: &[u8], f: impl Fn(u32) -> u32) {
        let a = self.source(&record[5..10]);
        self.write(record, four(|i| f(a[i])));
    }

    #[cfg_attr(feature = "inlined", inline(always))]
    fn two(&mut self, record: &[u8], f: impl Fn(u32, u32) -> u32) {
        let (a, b) = (self.source(&record[5..10]), self.source(&record[10..15]));
        self.write(record, four(|i| f(a[i], b[i])));
    }

    #[cfg_attr(feature = "inlined", inline(always))]
    fn three(&mut self, record: &[u8], f: impl Fn(u32, u32, u32) -> u32) {
        let (a, b) = (self.source(&record[5..10]), self.source(&record[10..15]));
        let c = self.source(&record[15..20]);
        self.write(record, four(|i| f(a[i], b[i], c[i])));
    }

    #[cfg_attr(feature = "inlined", inline(always))]
    fn wide(&mut self, record: &[u8], f: impl Fn(u64, u64) -> u64) {
        let a = pairs(self.source(&record[5..10]));
        let b = if record[0] < U64ADD { [0; 2] } else { pairs(self.source(&record[10..15])) };
        let (low, high) = (f(a[0], b[0]), f(a[1], b[1]));
        self.write(record, [low as u32, (low >> 32) as u32, high as u32, (high >> 32) as u32]);
    }

    fn step(&mut self, kind: u8, r: &[u8]) {
        match kind {
            MOV | UARL => self.one(r, |a| a),
            NOT => self.one(r, |a| !a),
            INEG => self.one(r, |a| a.wrapping_neg()),
            IABS => self.one(r, |a| (a as i32).unsigned_abs()),
            ISSG => self.one(r, |a| (a as i32).signum() as u32),
            BREV => self.one(r, |a| a.reverse_bits()),
            POPC => self.one(r, |a| a.count_ones()),
            LSB => self.one(r, |a| if a == 0 { u32::MAX } else { a.trailing_zeros() }),
            UMSB => self.one(r, |a| 31u32.wrapping_sub(a.leading_zeros())),
            IMSB => self.one(r, |a| 31u32.wrapping_sub((a ^ (a as i32 >> 31) as u32).leading_zeros())),
            UADD => self.two(r, |a, b| a.wrapping_add(b)),
            UMUL => self.two(r, |a, b| a.wrapping_mul(b)),
            IMUL_HI => self.two(r, imul_hi),
            UMUL_HI => self.two(r, umul_hi),
            IDIV => self.two(r, idiv),
            UDIV => self.two(r, udiv),
            MOD => self.two(r, imod),
            UMOD => self.two(r, umod),
            AND => self.two(r, |a, b| a & b),
            OR => self.two(r, |a, b| a | b),
            XOR => self.two(r, |a, b| a ^ b),
            IMIN => self.two(r, |a, b| (a as i32).min(b as i32) as u32),
            IMAX => self.two(r, |a, b| (a as i32).max(b as i32) as u32),
            UMIN => self.two(r, |a, b| a.min(b)),
            UMAX => self.two(r, |a, b| a.max(b)),
            SHL => self.two(r, |a, b| a << (b & 31)),
            ISHR => self.two(r, |a, b| (a as i32 >> (b & 31)) as u32),
            USHR => self.two(r, |a, b| a >> (b & 31)),
            ISLT => self.two(r, |a, b| truth((a as i32) < b as i32)),
            USLT => self.two(r, |a, b| truth(a < b)),
            ISGE => self.two(r, |a, b| truth(a as i32 >= b as i32)),
            USGE => self.two(r, |a, b| truth(a >= b)),
            USEQ => self.two(r, |a, b| truth(a == b)),
            USNE => self.two(r, |a, b| truth(a != b)),
            UMAD => self.three(r, |a, b, c| a.wrapping_mul(b).wrapping_add(c)),
            UCMP => self.three(r, |a, b, c| if a != 0 { b } else { c }),
            IBFE => self.three(r, ibfe),
            UBFE => self.three(r, ubfe),
            BFI => self.bit_field_insert(r),
            I64ABS..=I64SSG => self.wide(r, |a, _| unary64(kind, a)),
            U64ADD => self.wide(r, |a, b| a.wrapping_add(b)),
            U64MUL => self.wide(r, |a, b| a.wrapping_mul(b)),
            U64SHL..=U64SHR => self.shift(kind, r),
            U64SEQ..=I64SGE => self.wide(r, |a, b| comparison64(kind, a, b) as u64),
            U64DIV..=I64MAX => self.wide(r, |a, b| binary64(kind, a, b)),
            LOAD => self.load(r),
            STORE => self.store(r),
            _ => self.atomic(kind, r),
        }
    }

    fn bit_field_insert(&mut self, r: &[u8]) {
        let s = [5, 10, 15, 20].map(|at| self.source(&r[at..at + 5]));
        self.write(r, four(|i| bfi(s[0][i], s[1][i], s[2][i], s[3][i])));
    }

    fn shift(&mut self, kind: u8, r: &[u8]) {
        let (a, b) = (pairs(self.source(&r[5..10])), self.source(&r[10..15]));
        let (low, high) = (shift64(kind, a[0], b[0]), shift64(kind, a[1], b[1]));
        self.write(r, [low as u32, (low >> 32) as u32, high as u32, (high >> 32) as u32]);
    }

    fn load(&mut self, r: &[u8]) {
        let address = self.source(&r[5..10])[0];
        let result = four(|i| self.memory.get(word(address, i)).copied().unwrap_or(0));
        self.write(r, result);
    }

    fn store(&mut self, r: &[u8]) {
        let (address, value) = (self.source(&r[5..10])[0], self.source(&r[10..15]));
        for i in (0..4).filter(|i| r[4] >> i & 1 == 1) {
            if let Some(word) = self.memory.get_mut(word(address, i)) {
                *word = value[i];
            }
        }
    }

    fn atomic(&mut self, kind: u8, r: &[u8]) {
        let (address, operand) = (self.source(&r[5..10])[0], self.source(&r[10..15])[0]);
        let new = if kind == ATOMCAS { self.source(&r[15..20])[0] } else { 0 };
        let old = match self.memory.get_mut(word(address, 0)) {
            Some(word) => std::mem::replace(word, atomic(kind, *word, operand, new)),
            None => 0,
        };
        self.write(r, [old; 4]);
    }
}
