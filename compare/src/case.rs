//! One case of the comparison: a file, the words lent with it, a budget, records to ask for, and what is printed and read.

use crate::blocks;
use crate::check::{check, Program};
use crate::damage;
use crate::format::{CONST, IN, LONGEST_FILE};
use crate::generate::Draft;
use crate::kinds::BGNLOOP;
use crate::machine::REGISTER_WORDS;
use crate::paper::Paper;
use crate::random::Random;
use crate::run::MOST_MEMORY;

/// Of so many cases one is printed and read.
const PAPER_SHARE: u64 = 8;

pub struct Case {
    pub file: Vec<u8>,
    pub inputs: Vec<u32>,
    pub constants: Vec<u32>,
    pub registers: Vec<u32>,
    pub work: Vec<u32>,
    pub memory: Vec<u32>,
    pub budget: u32,
    /// The numbers of the records to ask for.
    pub records: Vec<usize>,
    pub paper: Option<Paper>,
}

impl Case {
    pub fn new(seed: u64, number: u64) -> Case {
        let random = &mut Random::for_case(seed, number);
        let file = file(random);
        let program = check(&file).ok();
        let (inputs, constants) = match &program {
            Some(program) => (program.declared.words_needed(IN), program.declared.words_needed(CONST)),
            None => (random.below(40), random.below(40)),
        };
        let work = program.as_ref().map_or(9, |program| 3 * program.instructions.len());
        let wrong = random.chance(2);
        let lengths = [inputs, constants, REGISTER_WORDS, work].map(|needed| match wrong {
            // Several are short at once, so that the order of these refusals is seen.
            true => needed.saturating_sub(random.below(2)),
            false => length_near(random, needed),
        });
        let memory = if wrong { MOST_MEMORY + random.below(2) } else { memory_length(random) };
        Case {
            inputs: (0..lengths[0]).map(|_| random.small_word()).collect(),
            constants: (0..lengths[1]).map(|_| random.small_word()).collect(),
            registers: filler(random, lengths[2]),
            work: filler(random, lengths[3]),
            memory: if memory < 100 { random.words(memory) } else { filler(random, memory) },
            budget: budget(random, program.as_ref()),
            records: record_numbers(random),
            paper: number.is_multiple_of(PAPER_SHARE).then(|| Paper::new(random, &file)),
            file,
        }
    }
}

/// A program of some length, most of them short.
fn some_program(random: &mut Random) -> Draft {
    let limit = match random.below(100) {
        0..=59 => 12,
        60..=94 => 40,
        95..=98 => 150,
        _ => 900,
    };
    match random.below(20) {
        0 => {
            let levels = random.between(3, 16);
            blocks::deep_program(random, levels)
        }
        _ => blocks::program(random, limit),
    }
}

fn file(random: &mut Random) -> Vec<u8> {
    match random.below(100) {
        0..=54 => some_program(random).bytes(),
        55..=74 => {
            let mut draft = some_program(random);
            // With two faults the one that is due first is given.
            for _ in 0..random.between(1, 2) {
                let number = random.between(2, 13) as u32;
                if !draft.records.is_empty() && draft.head > 0 && draft.head < draft.records.len() {
                    damage::aim(random, &mut draft, number);
                }
            }
            draft.bytes()
        }
        75..=84 => {
            let mut file = some_program(random).bytes();
            damage::damage_bytes(random, &mut file);
            file
        }
        85..=89 => {
            let mut draft = some_program(random);
            damage::damage_records(random, &mut draft);
            draft.bytes()
        }
        90..=98 => damage::soup(random).bytes(),
        _ => odd_file(random),
    }
}

/// Files near the greatest length, files of any bytes, and the empty file.
fn odd_file(random: &mut Random) -> Vec<u8> {
    match random.below(8) {
        0 => vec![],
        1 | 2 => {
            let mut file = some_program(random).bytes();
            file.resize(random.between(LONGEST_FILE - 1, LONGEST_FILE + 2), random.next() as u8);
            file
        }
        3 => vec![0x89; random.between(LONGEST_FILE, LONGEST_FILE + 1)],
        _ => (0..random.below(60)).map(|_| random.next() as u8).collect(),
    }
}

/// A length that is exact, longer or, seldom, short.
fn length_near(random: &mut Random, needed: usize) -> usize {
    match random.below(100) {
        0..=59 => needed,
        60..=95 => needed + random.below(9),
        96 | 97 => needed.saturating_sub(1),
        98 => random.below(needed + 1),
        _ => 0,
    }
}

fn memory_length(random: &mut Random) -> usize {
    match random.below(1000) {
        0..=899 => random.below(25),
        900..=989 => random.below(400),
        990..=993 => MOST_MEMORY,
        994..=997 => MOST_MEMORY + 1,
        _ => random.between(MOST_MEMORY, MOST_MEMORY + 3000),
    }
}

/// Words that are all different, so that one moved or left out is seen.
fn filler(random: &mut Random, length: usize) -> Vec<u32> {
    let start = random.next() as u32;
    (0..length as u32).map(|i| start.wrapping_add(i.wrapping_mul(0x9E37_79B1))).collect()
}

/// Any budget where there is no loop, and one that is soon spent where there is.
fn budget(random: &mut Random, program: Option<&Program>) -> u32 {
    let loops = program.is_none_or(|program| program.instructions.iter().any(|i| i.kind == BGNLOOP));
    match random.below(20) {
        0 => 0,
        1..=5 => random.below(20) as u32,
        6..=7 => random.below(3000) as u32,
        _ if loops => random.below(500) as u32,
        8..=10 => u32::MAX,
        _ => random.word().max(100),
    }
}

fn record_numbers(random: &mut Random) -> Vec<usize> {
    let far = random.pick(&[1 << 16, 1 << 32, usize::MAX, 1023, 22_000]);
    vec![0, random.below(10), random.below(40), random.below(40), far]
}
