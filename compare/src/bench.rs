//! The benchmark: steps per second of the library and of a plain interpreter, the time of a smallest run, and those of check, prepare,
//! print and read.

use crate::format::*;
use crate::kinds::*;
use crate::machine::REGISTER_WORDS;
use crate::printout::listing;
use crate::run::MOST_MEMORY;
use crate::runner::{Answer, Lent, Runner, DONE};
use crate::write::{self, from_hex};
use std::time::Instant;

const PROGRAMS: [(&str, &str); 3] = [
    ("bench1", include_str!("../vectors/bench1.hex")),
    ("bench2", include_str!("../vectors/bench2.hex")),
    ("bench3", include_str!("../vectors/bench3.hex")),
];

/// Each program counts to IN[0].x; so many rounds take over 50 ms.
const ROUNDS: u32 = 800_000;
const REPEATS: usize = 7;
/// Document 01's case 12: a run of two steps, nearly all of it check, prepare and clearing.
const SMALLEST: &str = "010300000000 0219000000000000000000000000000000 1003000001060000E400 89";
const SMALLEST_RUNS: usize = 1000;

/// The time of some work in seconds.
fn time(work: impl FnOnce()) -> f64 {
    let start = Instant::now();
    work();
    start.elapsed().as_secs_f64()
}

/// The least time of several: a disturbance only adds.
fn least_time(mut work: impl FnMut()) -> f64 {
    (0..REPEATS).map(|_| time(&mut work)).fold(f64::INFINITY, f64::min)
}

/// One whole run: the answer, the words it leaves, and its time.
fn run(runner: &dyn Runner, file: &[u8]) -> (Answer, Vec<u32>, f64) {
    let (mut registers, mut work) = (vec![0; REGISTER_WORDS], vec![0; 3 * 1024]);
    let mut memory = vec![0; MOST_MEMORY];
    let mut answer = Answer::done(0);
    let (inputs, constants) = (&[ROUNDS, 0, 0, 0], &[]);
    let lent = Lent { inputs, constants, registers: &mut registers, work: &mut work, memory: &mut memory };
    let time = time(|| answer = runner.run(file, lent, u32::MAX));
    registers.append(&mut memory);
    (answer, registers, time)
}

/// The time of the smallest run in microseconds.
fn smallest_run(runner: &dyn Runner) -> f64 {
    let file = from_hex(SMALLEST);
    let (mut registers, mut work) = (vec![0; REGISTER_WORDS], vec![0; 3 * 1024]);
    let all = least_time(|| {
        for _ in 0..SMALLEST_RUNS {
            let lent =
                Lent { inputs: &[], constants: &[], registers: &mut registers, work: &mut work, memory: &mut [] };
            assert_eq!(runner.run(&file, lent, u32::MAX), Answer::done(2));
        }
    });
    all / SMALLEST_RUNS as f64 * 1e6
}

/// Measures a program; false if the runners do not leave the same. They take turns, so that a busy machine is busy
/// for all of them.
fn bench_program(runners: &[&dyn Runner], file: &[u8]) -> bool {
    let (wanted, words, _) = run(runners[0], file);
    let mut same = true;
    let mut least = vec![f64::INFINITY; runners.len()];
    for _ in 0..REPEATS {
        for (runner, least) in runners.iter().zip(&mut least) {
            let (answer, left, time) = run(*runner, file);
            same &= answer == wanted && left == words;
            *least = least.min(time);
        }
    }
    for (runner, time) in runners.iter().zip(&least) {
        let (rate, ratio) = (wanted.first as f64 / time / 1e6, time / least[0]);
        println!("  {:18} {:6.1} ms, {rate:6.1} million steps a second, ratio {ratio:.2}", runner.name(), time * 1e3);
    }
    same
}

/// Runs the benchmark. The ratio is a runner's time per step over the plain interpreter's.
pub fn bench(product: Option<&dyn Runner>, second: &dyn Runner, plain: &dyn Runner) -> bool {
    let mut same = true;
    let runners: Vec<&dyn Runner> = [plain].into_iter().chain(product).chain([second]).collect();
    for (name, file) in programs() {
        println!("{name}: {} bytes, {} steps", file.len(), run(plain, &file).0.first);
        same &= bench_program(&runners, &file);
    }
    if !same {
        println!("the runners do not leave the same words");
    }
    for runner in &runners {
        println!("a whole run of 2 steps: {:18} {:.2} us", runner.name(), smallest_run(*runner));
    }
    for (name, file) in largest_files() {
        println!("{name}: {} bytes", file.len());
        for runner in product.into_iter().chain([second]) {
            let mut work = vec![0; 3 * 1024];
            let mut answer = Answer::done(0);
            let check = least_time(|| answer = runner.check(&file)) * 1e6;
            let prepare = least_time(|| answer = runner.prepare(&file, &mut work)) * 1e6;
            println!("  {:18} check {check:8.1} us, prepare {prepare:8.1} us: {answer:?}", runner.name());
        }
    }
    for (name, file) in [(LONGEST_LISTING, longest_listing()), ("listing of 65,536 marks", vec![NOP; LONGEST_FILE])] {
        let text = Vec::from(listing(&file));
        println!("{name}: {} bytes of {}", text.len(), file.len());
        for runner in product.into_iter().chain([second]) {
            let (mut printed, mut copied) = (vec![0; text.len()], vec![0; file.len()]);
            let (mut print, mut read) = (Answer::done(0), Answer::done(0));
            let print_time = least_time(|| print = runner.print(&file, &mut printed)) * 1e6;
            let read_time = least_time(|| read = runner.read(&text, &mut copied)) * 1e6;
            println!("  {:18} print {print_time:8.1} us: {print:?}, read {read_time:8.1} us: {read:?}", runner.name());
            same &= name != LONGEST_LISTING || is_quick(print, print_time) && is_quick(read, read_time);
        }
    }
    same
}

/// The listing that is measured against the clock: no accepted file has a longer one.
const LONGEST_LISTING: &str = "longest listing";

/// Whether a call was done, and within two milliseconds.
fn is_quick(answer: Answer, microseconds: f64) -> bool {
    answer.status == DONE && microseconds <= 2000.0
}

/// The programs that are stepped through: the recorded ones and the reversals.
fn programs() -> Vec<(&'static str, Vec<u8>)> {
    let recorded = PROGRAMS.map(|(name, text)| (name, from_hex(text)));
    recorded.into_iter().chain([("mostly BREV", reversals())]).collect()
}

/// A program that is mostly BREV: of the 36 steps of a round 28 reverse all four components.
fn reversals() -> Vec<u8> {
    const COUNT: u16 = 0;
    const ENOUGH: u16 = 1;
    const HASH: u16 = 2;
    const TURNED: u16 = 3;
    let x = |file, register| write::source(file, register, 0, 0);
    let one = |kind, to, sources: &[_]| write::instruction(kind, write::destination(TEMP, to, 1), sources);
    let all = |kind, to, sources: &[_]| write::instruction(kind, write::destination(TEMP, to, 15), sources);
    let reverse = |to, from| all(BREV, to, &[write::direct(TEMP, from)]);
    let there_and_back = [reverse(TURNED, HASH), reverse(HASH, TURNED)].concat();
    let mixed = [
        there_and_back.repeat(3),
        reverse(TURNED, HASH),
        all(UADD, HASH, &[write::direct(TEMP, TURNED), write::direct(IMM, 0)]),
    ];
    let parts = [
        write::declaration(IN, 0, 0),
        write::declaration(OUT, 0, 0),
        write::declaration(TEMP, COUNT, TURNED),
        write::immediate([1, 2, 3, 5]),
        write::mark(BGNLOOP),
        one(USGE, ENOUGH, &[x(TEMP, COUNT), x(IN, 0)]),
        write::control(UIF, x(TEMP, ENOUGH)),
        write::mark(BRK),
        write::mark(ENDIF),
        one(UADD, COUNT, &[x(TEMP, COUNT), x(IMM, 0)]),
        mixed.concat().repeat(4),
        write::mark(ENDLOOP),
        write::instruction(MOV, write::destination(OUT, 0, 15), &[write::direct(TEMP, HASH)]),
        write::mark(END),
    ];
    parts.concat()
}

/// Every register of every file by a declaration of its own, and 256 immediates of words that count up from one.
fn largest_head(first_word: u32) -> Vec<u8> {
    let mut bytes = vec![];
    for file in [CONST, IN, OUT, TEMP, ADDR, MEM] {
        for register in 0..file_size(file) as u16 {
            bytes.extend(write::declaration(file, register, register));
        }
    }
    for i in 0..256 {
        bytes.extend(write::immediate([0, 1, 2, 3].map(|component| first_word + 4 * i + component)));
    }
    bytes
}

/// The head and 1,024 instructions: those given, filled up with the longest kind, then END.
fn filled(first: Vec<Vec<u8>>, last: Vec<Vec<u8>>) -> Vec<u8> {
    let source = write::source(TEMP, 255, write::STRAIGHT, 8);
    let longest = write::instruction(BFI, write::destination(TEMP, 255, 15), &[source; 4]);
    let missing = 1023 - first.len() - last.len();
    let fill = vec![longest; missing];
    [largest_head(0), first.concat(), fill.concat(), last.concat(), write::mark(END)].concat()
}

/// A SWITCH with so many CASE labels, each of another value.
fn switch(cases: usize) -> Vec<Vec<u8>> {
    let case = |i| write::control(CASE, write::source(IMM, i as u16 / 4, i as u8 % 4, 0));
    let mut records = vec![write::control(SWITCH, write::direct(IN, 31))];
    records.extend((0..cases).map(case));
    records
}

/// The largest files there are. An accepted one has at most 38,004 bytes; 65,536 are reached with bytes after END,
/// which are refused only when all before them has been read.
fn largest_files() -> Vec<(&'static str, Vec<u8>)> {
    let end = || vec![write::mark(ENDSWITCH)];
    let loops = vec![write::mark(BGNLOOP); 16];
    let mut jumps = loops.clone();
    jumps.extend(vec![write::mark(BRK); 990]);
    let mut padded = filled(switch(500), end());
    padded.resize(LONGEST_FILE, 0);
    vec![
        ("largest accepted file", filled(vec![], vec![])),
        ("SWITCH with 500 CASE labels", filled(switch(500), end())),
        ("the same, filled up to 65,536 bytes", padded),
        ("SWITCH with 1,021 CASE labels", filled(switch(1021), end())),
        ("990 BRK in 16 loops", filled(jumps, vec![write::mark(ENDLOOP); 16])),
    ]
}

/// The accepted file with the longest listing: as many records and fields as there can be, with as many digits as they can have.
pub fn longest_listing() -> Vec<u8> {
    let source = write::source(TEMP, 65_535, 255, 8);
    let longest = write::instruction(BFI, write::destination(TEMP, 255, 15), &[source; 4]);
    [largest_head(u32::MAX - 1023), longest.repeat(1023), write::mark(END)].concat()
}
