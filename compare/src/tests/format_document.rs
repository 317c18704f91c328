//! `docs/FORMAT.md` against the library: its table of kinds, its results, its refused files and its two programs.

use super::documents::*;
use super::*;
use crate::kinds::{self, *};

const FORMAT: &str = include_str!("../../../docs/FORMAT.md");

/// A row of the table of kinds.
struct Row {
    byte: u8,
    name: &'static str,
    body: usize,
    destinations: usize,
    sources: usize,
    masks: Vec<u8>,
    negate: &'static str,
}

fn byte(text: &str) -> u8 {
    u8::from_str_radix(text, 16).unwrap_or_else(|_| panic!("not a byte: {text}"))
}

/// "1-15", "3 12 15", or "-" for none.
fn masks(text: &str) -> Vec<u8> {
    let number = |text: &str| text.parse().expect("a mask");
    match text.split_once('-') {
        Some(("", _)) => vec![],
        Some((first, last)) => (number(first)..=number(last)).collect(),
        None => text.split(' ').map(number).collect(),
    }
}

fn kind_rows() -> Vec<Row> {
    let row = |cells: Vec<&'static str>| {
        let [kind, name, body, destinations, sources, mask, negate, _] = cells[..] else { panic!("{cells:?}") };
        let [body, destinations, sources] = [body, destinations, sources].map(|cell| cell.parse().expect("a number"));
        Row { byte: byte(kind), name, body, destinations, sources, masks: masks(mask), negate }
    };
    rows(&section(FORMAT, "## Kinds")).into_iter().map(row).collect()
}

/// Record 0 of a kind byte and zeros, for each of the 256 kind bytes.
fn lengths_hold(runner: &dyn Runner) {
    let rows = kind_rows();
    for kind in 0..=255 {
        let mut file = [0; 41];
        file[0] = kind;
        let wanted = match rows.iter().find(|row| row.byte == kind) {
            Some(row) => Part { start: 0, length: 1 + row.body },
            None => Part { start: 41, length: 0 },
        };
        assert_eq!(runner.record(&file, 0), wanted, "{}: kind {kind:02X}", runner.name());
    }
}

#[test]
#[cfg_attr(not(product), ignore = "built without the library")]
fn lengths_of_the_library() {
    lengths_hold(crate::product().expect("the library is linked"));
}

#[test]
fn lengths_of_the_second_interpreter() {
    lengths_hold(&Second::new());
}

#[test]
fn names_and_operands() {
    let rows = kind_rows();
    let [declaration, immediate, instructions @ ..] = &rows[..] else { panic!("no rows") };
    assert_eq!([declaration.byte, immediate.byte], [DECLARATION, IMMEDIATE]);
    assert_eq!(instructions.len(), ALL.len());
    for (row, kind) in instructions.iter().zip(ALL) {
        let written = (row.byte, row.name, row.destinations, row.sources);
        assert_eq!(written, (kind.byte, kind.name, kind.destinations, kind.sources));
        assert_eq!(row.body, 4 * row.destinations + 5 * row.sources, "{}", row.name);
    }
}

/// "All other kinds are unknown: 00, 03 to 0F, .."
#[test]
fn unknown_kinds() {
    let text = section(FORMAT, "## Kinds").join(" ");
    let (_, list) = text.split_once("All other kinds are unknown: ").expect("the sentence");
    let list = list.split_once('.').expect("its end").0;
    let range = |part: &str| match part.split_once(" to ") {
        Some((first, last)) => byte(first)..=byte(last),
        None => byte(part)..=byte(part),
    };
    let unknown: Vec<u8> = list.split(", ").flat_map(range).collect();
    let known: Vec<u8> = kind_rows().iter().map(|row| row.byte).collect();
    assert!((0..=255).all(|kind| unknown.contains(&kind) != known.contains(&kind)));
}

/// One instruction of a kind in a program that declares all it names.
fn program(kind: u8, mask: u8, source: [u8; 5]) -> Vec<u8> {
    let sources = vec![source; kinds::instruction(kind).expect("an instruction").sources];
    let destination = match kind {
        UARL => write::destination(ADDR, 0, mask),
        STORE => write::destination(MEM, 0, mask),
        _ => write::destination(TEMP, 0, mask),
    };
    let body = match kind {
        UIF => vec![write::control(UIF, source), write::mark(ENDIF)],
        SWITCH => vec![write::control(SWITCH, source), on(CASE, 0), write::mark(ENDSWITCH)],
        CASE => vec![on(SWITCH, 0), write::control(CASE, source), write::mark(ENDSWITCH)],
        _ => vec![write::instruction(kind, destination, &sources)],
    };
    [with_head(body).concat(), write::mark(END)].concat()
}

/// The refusal's number, 0 for an accepted program.
fn number(answer: Answer) -> u32 {
    if answer.status == crate::runner::REFUSED {
        answer.first
    } else {
        0
    }
}

#[test]
fn masks_of_each_kind() {
    with_each_runner(|runner| {
        for row in kind_rows().iter().filter(|row| row.destinations == 1) {
            for mask in 0..=255 {
                let answer = runner.check(&program(row.byte, mask, write::direct(IMM, 0)));
                let wanted = if row.masks.contains(&mask) { 0 } else { 7 };
                assert_eq!(number(answer), wanted, "{}: {} with mask {mask}", runner.name(), row.name);
            }
        }
    });
}

#[test]
fn negate_of_each_kind() {
    with_each_runner(|runner| {
        for row in kind_rows().iter().filter(|row| row.sources > 0) {
            let mask = row.masks.first().copied().unwrap_or(0);
            let answer = runner.check(&program(row.byte, mask, write::source(IMM, 0, write::STRAIGHT, 1)));
            let wanted = if row.negate == "yes" { 0 } else { 7 };
            assert_eq!(number(answer), wanted, "{}: {} with negate", runner.name(), row.name);
        }
    });
}

/// The words of a pair or of x, the rest 0.
fn register(text: &str) -> [u32; 4] {
    let mut words = [0; 4];
    text.split(' ').zip(&mut words).for_each(|(text, word)| *word = crate::vectors::word(text));
    words
}

#[test]
fn results_in_figures() {
    let table = rows(&section(FORMAT, "## Results in figures"));
    assert_eq!(table.len(), 57);
    with_each_runner(|runner| {
        for cells in &table {
            let [name, sources, result] = cells[..] else { panic!("{cells:?}") };
            let kind = kinds::by_name(name).expect("a mnemonic");
            let mask = if is_pair(kind.byte) { 3 } else { 1 };
            let sources: Vec<[u32; 4]> = sources.split(", ").map(register).collect();
            assert_eq!(sources.len(), kind.sources, "{cells:?}");
            let operands: Vec<[u8; 5]> = (0..sources.len()).map(|i| write::direct(IMM, i as u16)).collect();
            let mut file = write::declaration(OUT, 0, 0);
            sources.iter().for_each(|words| file.extend(write::immediate(*words)));
            file.extend(write::instruction(kind.byte, write::destination(OUT, 0, mask), &operands));
            file.extend(write::mark(END));
            let left = Words::default().run(runner, &file, 2);
            assert_eq!(left.answer, Answer::done(2));
            assert_eq!(left.registers[..4], register(result), "{}: {cells:?}", runner.name());
        }
    });
}

#[test]
fn files_for_every_cause() {
    let table = rows(&section(FORMAT, "### A file for every cause"));
    with_each_runner(|runner| {
        for cells in &table {
            assert_eq!(runner.check(&bytes(cells[0])), answer(cells[1]), "{}: {cells:?}", runner.name());
        }
    });
    let numbers = |number: u32| table.iter().filter(|cells| self::number(answer(cells[1])) == number).count();
    assert_eq!((0..=13).map(numbers).collect::<Vec<_>>(), [3, 1, 1, 2, 2, 2, 2, 21, 1, 7, 10, 6, 1, 2]);
}

/// The bytes of a listed program and the rows of its table.
fn program_and_table(lines: &[&str]) -> (Vec<u8>, Vec<u32>) {
    let (mut file, mut table) = (vec![], vec![]);
    for cells in lines.iter().filter_map(|line| listed(line)) {
        let place = file.len() as u32;
        append(&mut file, &cells);
        let row: Vec<u32> = cells[2].split_whitespace().map(|number| number.parse().expect("a number")).collect();
        if let [number, jump, label] = row[..] {
            assert_eq!(3 * number as usize, table.len(), "the number of {cells:?}");
            table.extend([place, jump, label]);
        }
    }
    (file, table)
}

/// A run that the document tells of: its budget and answer, and below it the words that it leaves.
fn run_holds(runner: &dyn Runner, file: &[u8], lent: &Words, head: &str, below: &[&str]) {
    let (budget, wanted) = head.split_once(": ").expect("an answer");
    let budget = budget.trim_start_matches("budget ").parse().expect("a budget");
    let left = lent.run(runner, file, budget);
    let (mut registers, mut memory) = (vec![0; REGISTER_WORDS], lent.memory.clone());
    for text in below {
        let (name, index, words) = assigned(text);
        match name {
            "MEM" => memory = words,
            _ => registers[start(name, index)..][..4].copy_from_slice(&words),
        }
    }
    assert_eq!(left.answer, answer(wanted), "{}: {head}", runner.name());
    assert!(left.registers == registers && left.memory == memory, "{}: words after {head}", runner.name());
}

/// The runs that a section tells of; how many there are.
fn runs_hold(runner: &dyn Runner, heading: &str) -> usize {
    let lines = section(FORMAT, heading);
    let (file, table) = program_and_table(&lines);
    let mut work = vec![9; table.len() + 1];
    assert_eq!(runner.prepare(&file, &mut work), Answer::done(table.len() as u32 / 3));
    assert_eq!(work, [table, vec![9]].concat(), "{}: the table of {heading}", runner.name());
    let mut lent = Words::default();
    let told = lines.iter().filter(|line| line.starts_with("    ") && listed(line).is_none());
    let told: Vec<&str> = told.map(|line| line.trim()).collect();
    told.iter().filter_map(|line| line.strip_prefix("lent ")).for_each(|text| lent.lend(text));
    let heads: Vec<usize> = (0..told.len()).filter(|&i| told[i].starts_with("budget ")).collect();
    for (i, &head) in heads.iter().enumerate() {
        let end = heads.get(i + 1).copied().unwrap_or(told.len());
        run_holds(runner, &file, &lent, told[head], &told[head + 1..end]);
        run_holds(runner, &file, &lent.longer(), told[head], &told[head + 1..end]);
    }
    heads.len()
}

#[test]
fn two_programs() {
    with_each_runner(|runner| {
        assert_eq!(runs_hold(runner, "### A constant handed out"), 3);
        assert_eq!(runs_hold(runner, "### A sum of corrections that a list in memory names"), 3);
    });
}
