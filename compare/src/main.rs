//! The second interpreter, written from the papers alone, and its comparison with the library.

mod bench;
mod blocks;
mod case;
mod check;
mod compare;
mod control;
mod counts;
mod damage;
mod example;
mod fields;
mod format;
mod generate;
mod guarded;
mod kinds;
mod machine;
mod misprint;
mod pages;
mod paper;
mod plain;
mod printout;
#[cfg(product)]
mod product;
mod random;
mod reading;
mod run;
mod runner;
mod table;
#[cfg(test)]
mod tests;
mod vectors;
mod words;
mod write;

use case::Case;
use compare::{broken_law, difference, dump, outcome};
use counts::Counts;
use run::Second;
use runner::Runner;
use std::process::ExitCode;

const HELP: &str = "\
compare [COUNT [SEED]]  compare the library with the second interpreter on COUNT cases (200000)
replay SEED NUMBER      show one case of a comparison, and compare it
vectors                 run the recorded instructions and programs
example                 run ../examples/measure.bin on the texts of its README, also with the old fault
print FILE              print the listing of a file
bench                   measure steps, check, prepare, print and read
help                    print this";

const DEFAULT_COUNT: u64 = 200_000;
const DEFAULT_SEED: u64 = 1;
/// A comparison stops after so many differences.
const MOST_DIFFERENCES: u64 = 5;

#[cfg(product)]
fn product() -> Option<&'static dyn Runner> {
    Some(&product::Product)
}

#[cfg(not(product))]
fn product() -> Option<&'static dyn Runner> {
    None
}

/// Compares one case; true if there is no difference.
fn compare_case(second: &Second, counts: &mut Counts, seed: u64, number: u64) -> bool {
    let case = Case::new(seed, number);
    let wanted = outcome(second, &case);
    counts.add(&case, &wanted);
    let found = product().and_then(|product| difference(&outcome(product, &case), &wanted));
    let found = found.map(|text| format!("library and second interpreter: {text}"));
    let found = found.or(broken_law(&case, &wanted).map(|text| format!("second interpreter: {text}")));
    if let Some(text) = &found {
        println!("DIFFERENCE, seed {seed}, case {number}: {text}");
        print!("{}", dump(&case));
    }
    found.is_none()
}

fn compare(count: u64, seed: u64) -> bool {
    let second = Second::new();
    let mut counts = Counts::default();
    let mut differences = 0;
    let mut cases = 0;
    while cases < count && differences < MOST_DIFFERENCES {
        differences += !compare_case(&second, &mut counts, seed, cases) as u64;
        cases += 1;
    }
    let complete = counts.print(&second.carried_out.borrow());
    println!("{cases} cases from seed {seed}, {differences} differences");
    if !complete {
        println!("some refusal, misprint or instruction never occurred");
    }
    complete && differences == 0 && is_linked()
}

fn is_linked() -> bool {
    if product().is_none() {
        println!("built without the library: nothing was compared with it");
    }
    product().is_some()
}

fn replay(seed: u64, number: u64) -> bool {
    let second = Second::new();
    let case = Case::new(seed, number);
    print!("{}", dump(&case));
    println!("second interpreter: {}", outcome(&second, &case));
    compare_case(&second, &mut Counts::default(), seed, number) && is_linked()
}

fn vectors() -> bool {
    let second = Second::new();
    let mut all = true;
    for runner in product().into_iter().chain([&second as &dyn Runner]) {
        let lines = vectors::run_lines(runner);
        let programs = control::run_programs(runner);
        match (&lines, &programs) {
            (Ok(lines), Ok(totals)) => {
                println!("{}: {lines} instructions, {totals}: all as recorded", runner.name());
            }
            _ => println!("{}: {lines:?}, {programs:?}", runner.name()),
        }
        all &= lines.is_ok() && programs.is_ok();
    }
    all
}

/// Prints what the second interpreter prints of a file.
fn print(name: &str) -> bool {
    let file = match std::fs::read(name) {
        Ok(file) => file,
        Err(error) => {
            eprintln!("{name}: {error}");
            return false;
        }
    };
    let checked = check::check(&file);
    match &checked {
        Ok(_) => print!("{}", printout::listing(&file)),
        Err(refusal) => eprintln!("{name}: {refusal:?}"),
    }
    checked.is_ok()
}

fn main() -> ExitCode {
    let arguments: Vec<String> = std::env::args().skip(1).collect();
    let words: Vec<&str> = arguments.iter().map(String::as_str).collect();
    let number = |text: &str| text.parse::<u64>().unwrap_or_else(|_| panic!("not a number: {text}"));
    let success = match words[..] {
        ["compare"] => compare(DEFAULT_COUNT, DEFAULT_SEED),
        ["compare", count] => compare(number(count), DEFAULT_SEED),
        ["compare", count, seed] => compare(number(count), number(seed)),
        ["replay", seed, case] => replay(number(seed), number(case)),
        ["vectors"] => vectors(),
        ["example"] => example::example(product()),
        ["print", file] => print(file),
        ["bench"] => bench::bench(product(), &Second::new(), &plain::Plain),
        ["help"] => {
            println!("{HELP}");
            true
        }
        _ => {
            eprintln!("{HELP}");
            false
        }
    };
    if success {
        ExitCode::SUCCESS
    } else {
        ExitCode::FAILURE
    }
}
