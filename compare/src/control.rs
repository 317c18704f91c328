//! The recorded programs: each run to its end, and with every recorded budget to its halt.

use crate::machine::REGISTER_WORDS;
use crate::runner::{Answer, Runner};
use crate::vectors::{holds, register_start, word, Expected};
use crate::write::from_hex;
use std::fmt;

pub const CONTROL: &str = include_str!("../vectors/control.txt");

/// What the lines read so far say.
#[derive(Default)]
struct Setting {
    name: String,
    file: Vec<u8>,
    inputs: Vec<u32>,
    constants: Vec<u32>,
    memory: Vec<u32>,
}

#[derive(Default, Debug, PartialEq)]
pub struct Totals {
    pub programs: usize,
    pub ends: usize,
    pub halts: usize,
}

impl fmt::Display for Totals {
    fn fmt(&self, f: &mut fmt::Formatter) -> fmt::Result {
        write!(f, "{} programs with {} ends and {} halts", self.programs, self.ends, self.halts)
    }
}

fn number(text: &str) -> usize {
    text.parse().expect("a decimal number")
}

/// Sets the four words of a lent register.
fn set(words: &mut Vec<u32>, index: usize, values: &[&str]) {
    words.resize(words.len().max(4 * index + 4), 0);
    for (i, value) in values.iter().enumerate() {
        words[4 * index + i] = word(value);
    }
}

impl Setting {
    /// One line that describes the setting, and not a result.
    fn take(&mut self, parts: &[&str]) {
        match parts[0] {
            "program" => *self = Setting { name: parts[1].into(), ..Setting::default() },
            "bytes" => self.file = from_hex(parts[1]),
            "case" => {
                self.inputs.clear();
                self.constants.clear();
                self.memory.clear();
            }
            "in" => set(&mut self.inputs, number(parts[1]), &parts[2..]),
            "const" => set(&mut self.constants, number(parts[1]), &parts[2..]),
            "mem" => self.memory = parts[1..].iter().map(|part| word(part)).collect(),
            "endless" => {}
            other => panic!("a line of an unknown kind: {other}"),
        }
    }

    /// A result: its head, "end STEPS" or "halt BUDGET NEXT", and the indented lines below it.
    fn expected(&self, head: &[&str], below: &[&str]) -> Expected {
        let steps = number(head[1]) as u32;
        let answer = match head[0] {
            "end" => Answer::done(steps),
            _ => Answer::halted(steps, number(head[2]) as u32),
        };
        let mut registers = vec![0; REGISTER_WORDS];
        let mut memory_after = self.memory.clone();
        for line in below {
            let parts: Vec<&str> = line.split_whitespace().collect();
            let words = |from: usize| parts[from..].iter().map(|part| word(part)).collect::<Vec<u32>>();
            match parts[0] {
                "memory" => memory_after = words(1),
                "addr" => registers[register_start("addr", 0)..].copy_from_slice(&words(1)),
                name => {
                    let start = register_start(name, number(parts[1]));
                    registers[start..start + 4].copy_from_slice(&words(2));
                }
            }
        }
        let (inputs, constants) = (self.inputs.clone(), self.constants.clone());
        let (file, memory) = (self.file.clone(), self.memory.clone());
        Expected { file, inputs, constants, memory, budget: steps, answer, registers, memory_after }
    }
}

/// Runs every recorded result; an end also with a budget to spare.
pub fn run_programs(runner: &dyn Runner) -> Result<Totals, String> {
    let lines: Vec<&str> = CONTROL.lines().filter(|line| !line.starts_with('#')).collect();
    let mut totals = Totals::default();
    let mut setting = Setting::default();
    let mut at = 0;
    while at < lines.len() {
        let parts: Vec<&str> = lines[at].split_whitespace().collect();
        at += 1;
        totals.programs += (parts[0] == "program") as usize;
        if !matches!(parts[0], "end" | "halt") {
            setting.take(&parts);
            continue;
        }
        let below = lines[at..].iter().take_while(|line| line.starts_with(' ')).count();
        let mut expected = setting.expected(&parts, &lines[at..at + below]);
        at += below;
        let mut as_recorded = holds(runner, &expected);
        if parts[0] == "end" {
            expected.budget = u32::MAX;
            as_recorded &= holds(runner, &expected);
            totals.ends += 1;
        } else {
            totals.halts += 1;
        }
        if !as_recorded {
            return Err(format!("{}: {} {}", runner.name(), setting.name, parts.join(" ")));
        }
    }
    Ok(totals)
}
