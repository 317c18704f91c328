//! The example program on the texts of its README, by right runners and by one with the old fault.

use crate::machine::{OUT_WORDS, REGISTER_WORDS};
use crate::run::Second;
use crate::runner::{Answer, Lent, Runner, DONE};
use std::fmt;

const PROGRAM: &[u8] = include_bytes!("../../examples/measure.bin");
const README: &str = include_str!("../../examples/README.md");

/// The program reads so many characters, one a register.
const CHARACTERS: usize = 8;
/// More than any text takes; a runner that goes astray is halted.
const BUDGET: u32 = 1_000;

/// What a run gives.
#[derive(Clone, Copy, PartialEq, Debug)]
pub struct Measure {
    pub answer: Answer,
    /// OUT[0].x
    pub tenths: u32,
    /// OUT[1].x
    pub place: u32,
}

impl Measure {
    pub fn ended(tenths: u32, place: u32, steps: u32) -> Measure {
        Measure { answer: Answer::done(steps), tenths, place }
    }
}

impl fmt::Display for Measure {
    fn fmt(&self, f: &mut fmt::Formatter) -> fmt::Result {
        let Measure { answer, tenths, place } = self;
        match answer.status {
            DONE => write!(f, "{tenths}, {place}, {} steps", answer.first),
            _ => write!(f, "{answer:?}"),
        }
    }
}

/// A row of the README's table of results.
pub struct Row {
    pub text: &'static str,
    pub right: Measure,
    pub faulty: Measure,
}

/// The number a cell begins with.
fn number(cell: &str) -> u32 {
    cell.split_whitespace().next().and_then(|word| word.parse().ok()).expect("a number")
}

/// A line of five cells, the first a text in backquotes: text, tenths, place, steps, and the three with the fault.
fn row(line: &'static str) -> Option<Row> {
    let cells: Vec<&str> = line.trim_matches('|').split('|').map(str::trim).collect();
    let [text, tenths, place, steps, faulty] = cells[..] else { return None };
    let text = text.strip_prefix('`')?.strip_suffix('`')?;
    let [tenths, place, steps] = [tenths, place, steps].map(number);
    let faulty: Vec<u32> = faulty.split(',').map(number).collect();
    let faulty = Measure::ended(faulty[0], faulty[1], faulty[2]);
    Some(Row { text, right: Measure::ended(tenths, place, steps), faulty })
}

/// The rows of the table.
pub fn rows() -> Vec<Row> {
    README.lines().filter_map(row).collect()
}

/// As `words.sh` writes them: the code of a character in x, and 0 after the last.
fn inputs(text: &str) -> Vec<u32> {
    let mut words: Vec<u32> = text.bytes().flat_map(|code| [code as u32, 0, 0, 0]).collect();
    words.resize(4 * CHARACTERS, 0);
    words
}

pub fn measure(runner: &dyn Runner, text: &str) -> Measure {
    let (mut registers, mut work) = (vec![0; REGISTER_WORDS], vec![0; 3 * 1024]);
    let inputs = inputs(text);
    let lent = Lent { inputs: &inputs, constants: &[], registers: &mut registers, work: &mut work, memory: &mut [] };
    let answer = runner.run(PROGRAM, lent, BUDGET);
    Measure { answer, tenths: registers[OUT_WORDS], place: registers[OUT_WORDS + 4] }
}

/// Whether the runners give the right results and the faulty one its own wrong ones; prints a line.
fn row_holds(runners: &[&dyn Runner], faulty: &dyn Runner, row: &Row) -> bool {
    let mut holds = row.faulty != row.right;
    let mut line = format!("{:8}", row.text);
    let right = runners.iter().map(|runner| (*runner, row.right));
    for (runner, wanted) in right.chain([(faulty, row.faulty)]) {
        let found = measure(runner, row.text);
        line += &format!("  {}: {found}", runner.name());
        if found != wanted {
            line += &format!(" AND NOT {wanted}");
            holds = false;
        }
    }
    println!("{line}");
    holds
}

/// The row the example is there for: ten times too much.
fn is_ten_times_too_much(row: &Row) -> bool {
    row.text == "2,5" && row.right.tenths == 25 && row.faulty.tenths == 250
}

/// Runs the example on every text of the table; true if all results are those of the table.
pub fn example(product: Option<&dyn Runner>) -> bool {
    let (second, faulty) = (Second::new(), Second::with_old_fault());
    let runners: Vec<&dyn Runner> = product.into_iter().chain([&second as &dyn Runner]).collect();
    let rows = rows();
    let held = rows.iter().filter(|row| row_holds(&runners, &faulty, row)).count();
    rows.iter().any(is_ten_times_too_much) && held == rows.len()
}
