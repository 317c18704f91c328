//! The recorded results: lines of one instruction each, and programs with every halt.

use crate::format::*;
use crate::kinds::{self, Kind};
use crate::machine::{ADDR_WORDS, OUT_WORDS, REGISTER_WORDS, TEMP_WORDS};
use crate::runner::{Answer, Lent, Runner};
use crate::write;

pub const INSTRUCTIONS: &str = include_str!("../vectors/instructions.txt");

pub fn word(text: &str) -> u32 {
    u32::from_str_radix(text, 16).expect("a word in hex")
}

/// A run with what is expected of it.
pub struct Expected {
    pub file: Vec<u8>,
    pub inputs: Vec<u32>,
    pub constants: Vec<u32>,
    pub memory: Vec<u32>,
    pub budget: u32,
    pub answer: Answer,
    pub registers: Vec<u32>,
    pub memory_after: Vec<u32>,
}

/// Whether a runner gives the expected answer and every expected word.
pub fn holds(runner: &dyn Runner, expected: &Expected) -> bool {
    let mut registers = vec![0xA5A5_A5A5; REGISTER_WORDS];
    let mut work = vec![0; 3 * 1024];
    let mut memory = expected.memory.clone();
    let lent = Lent {
        inputs: &expected.inputs,
        constants: &expected.constants,
        registers: &mut registers,
        work: &mut work,
        memory: &mut memory,
    };
    let answer = runner.run(&expected.file, lent, expected.budget);
    answer == expected.answer && registers == expected.registers && memory == expected.memory_after
}

/// One line of the recorded instructions.
struct Line {
    kind: &'static Kind,
    mask: u8,
    sources: Vec<(bool, [u32; 4])>,
    result: [u32; 4],
    memory: Vec<u32>,
    memory_after: Vec<u32>,
}

fn words(text: &str) -> Vec<u32> {
    text.split(',').map(word).collect()
}

fn register(text: &str) -> [u32; 4] {
    words(text).try_into().expect("four words")
}

fn parse(text: &str) -> Line {
    let mut parts = text.split(' ');
    let kind = kinds::by_name(parts.next().expect("a mnemonic")).expect("a known mnemonic");
    let (memory, memory_after) = (vec![], vec![]);
    let mut line = Line { kind, mask: 0, sources: vec![], result: [0; 4], memory, memory_after };
    for part in parts {
        let (name, value) = part.split_once('=').expect("name=value");
        match name {
            "m" => line.mask = word(value) as u8,
            "mem" => line.memory = words(value),
            "after" => line.memory_after = words(value),
            "r" => line.result = register(value),
            _ => line.sources.push((value.starts_with('-'), register(value.trim_start_matches('-')))),
        }
    }
    line
}

impl Line {
    /// A little program of the one instruction and END, its sources taken from one register file.
    fn program(&self, file: u8) -> Vec<u8> {
        let mut bytes = vec![];
        for declared in [OUT, TEMP, ADDR, MEM] {
            bytes.extend(write::declaration(declared, 0, 0));
        }
        match file {
            IMM => self.sources.iter().for_each(|(_, words)| bytes.extend(write::immediate(*words))),
            _ => bytes.extend(write::declaration(file, 0, self.sources.len() as u16 - 1)),
        }
        let destination = match self.kind.byte {
            kinds::UARL => write::destination(ADDR, 0, self.mask),
            kinds::STORE => write::destination(MEM, 0, self.mask),
            _ => write::destination(TEMP, 0, self.mask),
        };
        let source =
            |(i, (negate, _)): (usize, &(bool, _))| write::source(file, i as u16, write::STRAIGHT, *negate as u8);
        let sources: Vec<_> = self.sources.iter().enumerate().map(source).collect();
        bytes.extend(write::instruction(self.kind.byte, destination, &sources));
        bytes.extend(write::mark(kinds::END));
        bytes
    }

    fn expected(&self, file: u8) -> Expected {
        let lent: Vec<u32> = self.sources.iter().flat_map(|(_, words)| *words).collect();
        let mut registers = vec![0; REGISTER_WORDS];
        let start = if self.kind.byte == kinds::UARL { ADDR_WORDS } else { TEMP_WORDS };
        registers[start..start + 4].copy_from_slice(&self.result);
        Expected {
            file: self.program(file),
            inputs: if file == IN { lent.clone() } else { vec![] },
            constants: if file == CONST { lent } else { vec![] },
            memory: self.memory.clone(),
            budget: 2,
            answer: Answer::done(2),
            registers,
            memory_after: self.memory_after.clone(),
        }
    }
}

/// Runs one line, with its sources as inputs, as constants and as immediates.
pub fn run_line(runner: &dyn Runner, text: &str) -> Result<(), String> {
    let line = parse(text);
    if line.sources.len() != line.kind.sources {
        return Err(format!("a line with the wrong number of sources: {text}"));
    }
    for file in [IN, CONST, IMM] {
        if !holds(runner, &line.expected(file)) {
            return Err(format!("{}, sources from file {file}: {text}", runner.name()));
        }
    }
    Ok(())
}

/// Runs every recorded line; the number of lines that hold.
pub fn run_lines(runner: &dyn Runner) -> Result<usize, String> {
    let mut held = 0;
    for text in INSTRUCTIONS.lines().filter(|text| !text.starts_with('#')) {
        run_line(runner, text)?;
        held += 1;
    }
    Ok(held)
}

/// Where a register begins in the lent words, by its name in the recorded programs.
pub fn register_start(name: &str, index: usize) -> usize {
    match name {
        "out" => OUT_WORDS + 4 * index,
        "temp" => TEMP_WORDS + 4 * index,
        _ => ADDR_WORDS,
    }
}
