//! What the examples in the documents are made of: sections, tables, bytes, listings, words of registers.

use super::*;
use crate::vectors::{register_start, word};
use crate::write::from_hex;

/// What a test of the documents does, with the library if it is linked and with the second interpreter.
pub fn with_each_runner(test: impl Fn(&dyn Runner)) {
    crate::product().into_iter().for_each(&test);
    test(&Second::new());
}

/// The lines between a heading and the next of the same level or above.
pub fn section<'a>(document: &'a str, heading: &str) -> Vec<&'a str> {
    let level = heading.split(' ').next().expect("a heading");
    let ends = |line: &str| line.starts_with('#') && line.split(' ').next().is_some_and(|l| l.len() <= level.len());
    let after = document.lines().skip_while(|line| *line != heading).skip(1);
    let lines: Vec<&str> = after.take_while(|line| !ends(line)).collect();
    assert!(!lines.is_empty(), "no section {heading}");
    lines
}

/// The cells of the rows of the section's tables, the heads left out.
pub fn rows<'a>(section: &[&'a str]) -> Vec<Vec<&'a str>> {
    let is_head = |i: usize| section.get(i + 1).is_some_and(|below| below.starts_with("|---"));
    let lines = section.iter().enumerate().filter(|(i, line)| line.starts_with('|') && !is_head(*i));
    let rows = lines.filter(|(_, line)| !line.starts_with("|---"));
    rows.map(|(_, line)| line.trim_start_matches('|').trim_end_matches('|').split('|').map(str::trim).collect())
        .collect()
}

/// Bytes in hex; `(..)*n` stands for these bytes n times.
pub fn bytes(text: &str) -> Vec<u8> {
    let Some(open) = text.find('(') else { return from_hex(text) };
    let close = closing(text, open);
    let digits = text[close + 2..].chars().take_while(char::is_ascii_digit).count();
    let (count, rest) = text[close + 2..].split_at(digits);
    let repeated = bytes(&text[open + 1..close]).repeat(count.parse().expect("a count"));
    [from_hex(&text[..open]), repeated, bytes(rest)].concat()
}

/// Where the bracket closes that opens at a place.
fn closing(text: &str, open: usize) -> usize {
    let mut depth = 0;
    for (i, sign) in text.char_indices().skip(open) {
        depth += (sign == '(') as i32 - (sign == ')') as i32;
        if depth == 0 {
            return i;
        }
    }
    panic!("an open bracket: {text}");
}

/// The cells of a line of a listing: place, bytes and so on.
pub fn listed(line: &str) -> Option<Vec<&str>> {
    let cells: Vec<&str> = line.split(" |").map(str::trim).collect();
    (line.starts_with("    ") && cells.len() > 1).then_some(cells)
}

/// Adds the bytes of a listed record, whose place must be where the file has come to.
pub fn append(file: &mut Vec<u8>, cells: &[&str]) {
    assert_eq!(cells[0].parse(), Ok(file.len()), "the place of {cells:?}");
    let record = from_hex(cells[1]);
    assert_eq!(crate::format::record(&record, 0), Part { start: 0, length: record.len() }, "{cells:?}");
    file.extend(record);
}

/// "OUT[3] = 1 2 3 4" or "MEM = 1 2": the name, the number and the words.
pub fn assigned(text: &str) -> (&str, usize, Vec<u32>) {
    let (name, words) = text.split_once(" = ").unwrap_or_else(|| panic!("no words: {text}"));
    let words = words.split(' ').map(word).collect();
    match name.split_once('[') {
        Some((name, index)) => (name, index.trim_end_matches(']').parse().expect("a number"), words),
        None => (name, 0, words),
    }
}

/// Where the words of "OUT", "TEMP" or "ADDR" begin.
pub fn start(name: &str, index: usize) -> usize {
    assert!(["OUT", "TEMP", "ADDR"].contains(&name), "{name} is not written");
    register_start(&name.to_lowercase(), index)
}

/// Words that a document lends.
#[derive(Clone, Default)]
pub struct Words {
    pub inputs: Vec<u32>,
    pub constants: Vec<u32>,
    pub memory: Vec<u32>,
}

impl Words {
    /// "CONST[1] = 1 2 3 4", "IN[0] = ..", "MEM = .."; registers come in order.
    pub fn lend(&mut self, text: &str) {
        let (name, index, words) = assigned(text);
        let lent = match name {
            "CONST" => &mut self.constants,
            "IN" => &mut self.inputs,
            _ => &mut self.memory,
        };
        assert_eq!(lent.len(), 4 * index, "{text}");
        lent.extend(words);
    }

    /// With more inputs and constants than any program can declare: "the others change nothing that a run gives".
    pub fn longer(&self) -> Words {
        let mut words = self.clone();
        words.inputs.resize(128 + 1, 7);
        words.constants.resize(4096 + 1, 7);
        words
    }

    pub fn run(&self, runner: &dyn Runner, file: &[u8], budget: u32) -> Left {
        let (mut registers, mut work, mut memory) = (vec![9; REGISTER_WORDS], vec![9; 3 * 1024], self.memory.clone());
        let lent = Lent {
            inputs: &self.inputs,
            constants: &self.constants,
            registers: &mut registers,
            work: &mut work,
            memory: &mut memory,
        };
        let answer = runner.run(file, lent, budget);
        Left { answer, registers, work, memory }
    }
}

/// "refused 7 at 0", "accepted, 3 instructions", "ended, 3 steps", "halted, 3 steps, next 4".
pub fn answer(text: &str) -> Answer {
    let parts: Vec<&str> = text.split([' ', ',']).filter(|part| !part.is_empty()).collect();
    let number = |i: usize| parts[i].parse().unwrap_or_else(|_| panic!("not a number: {text}"));
    match (parts[0], parts.len()) {
        ("refused", 4) => Answer::refused(number(1), number(3)),
        ("accepted" | "ended", 3) => Answer::done(number(1)),
        ("halted", 5) => Answer::halted(number(1), number(4)),
        _ => panic!("not an answer: {text}"),
    }
}
