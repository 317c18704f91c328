//! Listed programs, of the example's source and of the documents: the column of records, which reviewers read, is what the column of
//! bytes says by document 01.

use super::documents::{listed, section};
use super::*;
use crate::kinds;

const TABLE: &str = include_str!("../../../examples/measure.txt");
const PROGRAM: &[u8] = include_bytes!("../../../examples/measure.bin");
const FORMAT: &str = include_str!("../../../docs/FORMAT.md");
const DIFFERENCES: &str = include_str!("../../../docs/DIFFERENCES.md");

/// The column of records: it follows the bytes, and in FORMAT the row of the prepared table.
const AFTER_BYTES: usize = 2;
const AFTER_ROW: usize = 3;

const COMPONENTS: [char; 4] = ['x', 'y', 'z', 'w'];

fn file_name(file: u8) -> &'static str {
    ["?", "CONST", "IN", "OUT", "TEMP", "ADDR", "IMM", "MEM"].get(file as usize).unwrap_or(&"?")
}

/// A word as the table has it: what would be negative as a signed number in hex.
fn word(word: u32) -> String {
    if word < 0x8000_0000 {
        word.to_string()
    } else {
        format!("0x{word:08X}")
    }
}

fn declaration_text(declaration: Declaration) -> String {
    let Declaration { file, first, last } = declaration;
    let last = if first == last { String::new() } else { format!("..{last}") };
    format!("DCL {}[{first}{last}]", file_name(file))
}

fn destination_text(destination: &Destination) -> String {
    let mask: String = (0..4).filter(|i| destination.mask >> i & 1 == 1).map(|i| COMPONENTS[i]).collect();
    format!("{}[{}].{mask}", file_name(destination.file), destination.index)
}

/// "A letter alone as a swizzle is that component four times."
fn swizzle_text(source: &Source) -> String {
    let all: String = (0..4).map(|i| COMPONENTS[source.selects(i)]).collect();
    let first = &all[..1];
    if all == first.repeat(4) {
        first.to_string()
    } else {
        all
    }
}

fn source_text(source: &Source) -> String {
    let sign = if source.is_negated() { "-" } else { "" };
    let address = source.address().map_or(String::new(), |i| format!(" + ADDR[0].{}", COMPONENTS[i]));
    format!("{sign}{}[{}{address}].{}", file_name(source.file), source.index, swizzle_text(source))
}

fn instruction_text(instruction: &Instruction) -> String {
    let name = kinds::instruction(instruction.kind).expect("an instruction").name;
    let destination = instruction.destination.iter().map(destination_text);
    let operands: Vec<String> = destination.chain(instruction.sources.iter().map(source_text)).collect();
    format!("{name} {}", operands.join(", ")).trim_end().to_string()
}

fn record_text(record: &Record) -> String {
    match record.kind {
        kinds::DECLARATION => declaration_text(record.declaration()),
        kinds::IMMEDIATE => format!("IMM {{{}}}", record.immediate().map(word).join(", ")),
        _ => instruction_text(&record.instruction()),
    }
}

/// Whether a kind opens a block, closes one, or stands between its parts.
fn opens(kind: u8) -> bool {
    [kinds::UIF, kinds::BGNLOOP, kinds::SWITCH].contains(&kind)
}

fn closes(kind: u8) -> bool {
    [kinds::ENDIF, kinds::ENDLOOP, kinds::ENDSWITCH].contains(&kind)
}

fn divides(kind: u8) -> bool {
    [kinds::ELSE, kinds::CASE, kinds::DEFAULT].contains(&kind)
}

/// The records of a file, a line each: place, and the record two spaces further in for each open block.
fn listing(file: &[u8]) -> Vec<(usize, String)> {
    let (mut lines, mut place, mut depth) = (Vec::new(), 0, 0);
    while place < file.len() {
        let record = record_at(file, place).expect("a record");
        let outside = usize::from(closes(record.kind) || divides(record.kind));
        lines.push((place, "  ".repeat(depth - outside) + &record_text(&record)));
        depth = depth + usize::from(opens(record.kind)) - usize::from(closes(record.kind));
        place += 1 + record.body.len();
    }
    lines
}

/// A line of a listed program: place, bytes and record.
struct Row<'a> {
    place: usize,
    bytes: Vec<u8>,
    record: &'a str,
}

fn row(line: &str, column: usize) -> Row<'_> {
    let cells: Vec<&str> = line.split('|').collect();
    let byte = |digits| u8::from_str_radix(digits, 16).expect("hex");
    Row {
        place: cells[0].trim().parse().expect("a place"),
        bytes: cells[1].split_whitespace().map(byte).collect(),
        record: cells[column].strip_prefix(' ').expect("a space").trim_end(),
    }
}

/// The first line of a listed program whose place or record is not what all its bytes say.
fn wrong_line(program: &[&str], column: usize) -> Option<String> {
    let rows: Vec<Row> = program.iter().map(|line| row(line, column)).collect();
    let file: Vec<u8> = rows.iter().flat_map(|row| row.bytes.clone()).collect();
    let lines = listing(&file);
    assert_eq!(rows.len(), lines.len());
    let found = rows.iter().map(|row| (row.place, row.record.to_string()));
    found.zip(lines).find(|(found, line)| found != line).map(|(found, line)| format!("{found:?}, and not {line:?}"))
}

/// Of each listed program of a text, its wrong line.
fn wrong_in_table(text: &str) -> Vec<Option<String>> {
    let lines: Vec<&str> = text.lines().filter(|line| !line.starts_with('#')).collect();
    vec![wrong_line(&lines, AFTER_BYTES)]
}

/// A program is the listed lines that follow one another.
fn wrong_in_lines(lines: &[&str], column: usize) -> Vec<Option<String>> {
    let programs = lines.split(|line| listed(line).is_none()).filter(|program| !program.is_empty());
    programs.map(|program| wrong_line(program, column)).collect()
}

fn wrong_in_format(text: &str) -> Vec<Option<String>> {
    wrong_in_lines(&section(text, "## Two programs"), AFTER_ROW)
}

fn wrong_in_differences(text: &str) -> Vec<Option<String>> {
    wrong_in_lines(&text.lines().collect::<Vec<_>>(), AFTER_BYTES)
}

#[test]
fn bytes_of_the_example() {
    let lines = TABLE.lines().filter(|line| !line.starts_with('#'));
    assert_eq!(lines.flat_map(|line| row(line, AFTER_BYTES).bytes).collect::<Vec<u8>>(), PROGRAM);
}

#[test]
fn records_are_what_the_bytes_say() {
    assert_eq!(wrong_in_table(TABLE), [None]);
    assert_eq!(wrong_in_format(FORMAT), [None, None]);
    assert_eq!(wrong_in_differences(DIFFERENCES), vec![None; 7]);
}

/// Each of these changes of a text makes a line of it wrong.
fn are_found(text: &str, wrong: fn(&str) -> Vec<Option<String>>, changes: &[(&str, &str)]) {
    for (old, new) in changes {
        assert!(text.contains(old), "{old}");
        assert!(wrong(&text.replacen(old, new, 1)).iter().any(Option::is_some), "{new}");
    }
}

/// Changes in the column of records, or in the bytes beside it.
#[test]
fn changed_lines_of_the_example_are_found() {
    let changes = [
        ("| MOV TEMP[3].x", "| NOT TEMP[3].x"),
        ("TEMP[3].x, IN[3].x", "TEMP[3].x, IN[2].x"),
        ("TEMP[3].x, IN[3].x", "TEMP[3].x, CONST[3].x"),
        ("TEMP[3].x, IN[3].x", "TEMP[3].y, IN[3].x"),
        ("TEMP[3].x, IN[3].x", "TEMP[3].xy, IN[3].x"),
        ("TEMP[9].y, IMM[1].y", "TEMP[9].y, IMM[1].x"),
        ("TEMP[9].y, IMM[1].y", "TEMP[9].y, IMM[1].xyzw"),
        ("TEMP[9].w, -IMM[0].z", "TEMP[9].w, IMM[0].z"),
        ("TEMP[9].w, IMM[0].w, TEMP[10].y", "TEMP[9].w, TEMP[10].y, IMM[0].w"),
        ("MOV TEMP[10].y, TEMP[0 + ADDR[0].x].x", "MOV TEMP[10].y, TEMP[0].x"),
        ("MOV TEMP[10].y, TEMP[0 + ADDR[0].x].x", "MOV TEMP[10].y, TEMP[0 + ADDR[0].y].x"),
        ("DCL IN[0..7]", "DCL IN[0..8]"),
        ("IMM {44,", "IMM {46,"),
        ("0xFFFFFFFF", "0xFFFFFFFE"),
        ("|     BRK ", "|   BRK   "),
        ("  148 |", "  149 |"),
        ("10 04 03 00 01 02 03", "10 04 03 00 01 02 04"),
    ];
    are_found(TABLE, wrong_in_table, &changes);
}

#[test]
fn changed_lines_of_the_documents_are_found() {
    let in_format = [
        ("|   LOAD TEMP[0].x", "|   MOV TEMP[0].x"),
        ("LOAD TEMP[0].x, TEMP[1].x", "LOAD TEMP[1].x, TEMP[1].x"),
        ("LOAD TEMP[0].x, TEMP[1].x", "LOAD TEMP[0].x, IMM[1].x"),
        ("STORE MEM[0].x,", "STORE MEM[0].xy,"),
        ("UIF TEMP[1].z", "UIF TEMP[1].y"),
        ("MOV OUT[0].x, IMM[0].xyzw", "MOV OUT[0].x, IMM[0]"),
        ("TEMP[1].y, CONST[0 + ADDR[0].x].x", "TEMP[1].y, CONST[0].x"),
        ("IMM {25,", "IMM {26,"),
        ("DCL CONST[0..2]", "DCL CONST[0..3]"),
        ("|     BRK", "|   BRK"),
        ("    130 |", "    131 |"),
        ("90 04 01 00 AA 00", "90 04 01 00 55 00"),
    ];
    are_found(FORMAT, wrong_in_format, &in_format);
    let in_differences = [
        ("| U64ADD TEMP[0]", "| U64MUL TEMP[0]"),
        ("TEMP[0].zwxy", "TEMP[0].xyzw"),
        ("UARL ADDR[0].xy", "UARL ADDR[0].x"),
        ("CONST[1 + ADDR[0].x]", "CONST[2 + ADDR[0].x]"),
        ("IMM {0xFFFFFFFF,", "IMM {0xFFFFFFFE,"),
        ("CASE IMM[0].x", "CASE IMM[0].y"),
    ];
    are_found(DIFFERENCES, wrong_in_differences, &in_differences);
}
