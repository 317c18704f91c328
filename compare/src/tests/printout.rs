//! Printing and reading back: document 02's example, each way in which a line can be malformed, and the order of refusals.

use super::documents::with_each_runner;
use super::*;
use crate::bench::longest_listing;
use crate::kinds::*;
use crate::write::from_hex;

/// The 34 bytes of document 01's case 12, and document 02's lines of them.
const SMALL: &str = "010300000000 0219000000000000000000000000000000 1003000001060000E400 89";
const SMALL_LINES: &str = "1 3 0 0\n2 25 0 0 0\n16 3 0 1 6 0 228 0\n137\n";

/// What stands in a lent output before a call.
const BEFORE: u8 = 0xA5;

/// The answer of a call and the bytes it wrote, with the lent output so long; bytes past them must have stayed. The library, if it is
/// linked, must do the same as the second interpreter.
fn called(call: impl Fn(&dyn Runner, &mut [u8]) -> Answer, length: usize) -> (Answer, Vec<u8>) {
    let call = |runner: &dyn Runner| {
        let mut output = vec![BEFORE; length];
        let answer = call(runner, &mut output);
        let written = if answer.status == crate::runner::DONE { answer.first as usize } else { 0 };
        assert!(output[written..].iter().all(|&byte| byte == BEFORE), "{answer:?}");
        output.truncate(written);
        (answer, output)
    };
    let wanted = call(&Second::new());
    with_each_runner(|runner| assert_eq!(call(runner), wanted, "{}", runner.name()));
    wanted
}

fn print_into(file: &[u8], length: usize) -> (Answer, Vec<u8>) {
    called(|runner, output| runner.print(file, output), length)
}

fn read_into(text: &[u8], length: usize) -> (Answer, Vec<u8>) {
    called(|runner, output| runner.read(text, output), length)
}

/// The answer to reading with an output that is long enough.
fn read(text: &[u8]) -> Answer {
    read_into(text, LONGEST_FILE).0
}

/// The answer to reading SMALL_LINES with this in the place of one of its lines.
fn read_with(line: usize, text: &[u8]) -> Answer {
    let mut lines: Vec<&[u8]> = SMALL_LINES.split_inclusive('\n').map(str::as_bytes).collect();
    lines[line] = text;
    read(&lines.concat())
}

/// Where the lines of SMALL_LINES begin.
const PLACES: [u32; 4] = [0, 8, 19, 38];

#[test]
fn example_of_the_paper() {
    let file = from_hex(SMALL);
    assert_eq!((file.len(), SMALL_LINES.len()), (34, 42));
    assert_eq!(print_into(&file, 42), (Answer::done(42), SMALL_LINES.into()));
    assert_eq!(print_into(&file, 50), (Answer::done(42), SMALL_LINES.into()));
    assert_eq!(read_into(SMALL_LINES.as_bytes(), 34), (Answer::done(34), file.clone()));
    assert_eq!(read_into(SMALL_LINES.as_bytes(), 40), (Answer::done(34), file));
    for (line, text) in SMALL_LINES.split_inclusive('\n').enumerate() {
        assert_eq!(read_with(line, text.as_bytes()), Answer::done(34));
        assert_eq!(read_with(line, b"x\n"), Answer::refused(30, PLACES[line]));
    }
}

#[test]
fn output_short() {
    let file = from_hex(SMALL);
    for length in [0, 1, 33, 41] {
        assert_eq!(print_into(&file, length), (Answer::refused(31, 0), vec![]));
    }
    for length in [0, 1, 33] {
        assert_eq!(read_into(SMALL_LINES.as_bytes(), length), (Answer::refused(31, 0), vec![]));
    }
}

#[test]
fn fields_in_file_order() {
    let head = [write::declaration(TEMP, 258, 65_535), write::immediate([u32::MAX, 0, 1 << 31, 256])];
    let source = |i: u8| write::source(i, 0x1234 + i as u16, 10 + i, 20 + i);
    let body = [
        write::instruction(BFI, write::destination(4, 0xFFFF, 15), &[1, 2, 3, 4].map(source)),
        write::control(CASE, source(5)),
        write::mark(END),
    ];
    let lines = [
        "1 4 258 65535\n",
        "2 4294967295 0 2147483648 256\n",
        "112 4 65535 15 1 4661 11 21 2 4662 12 22 3 4663 13 23 4 4664 14 24\n",
        "146 5 4665 15 25\n",
        "137\n",
    ];
    let file = [head.concat(), body.concat()].concat();
    assert_eq!(crate::printout::listing(&file), lines.concat());
    assert_eq!(crate::printout::spelled(lines.concat().as_bytes()), Ok(file));
}

/// As many numbers as the kind's body has fields, as wide together as the body.
#[test]
fn widths_of_all_kinds() {
    for kind in 0..=255 {
        let widths = crate::printout::widths(kind);
        assert_eq!(widths.map(|widths| widths.iter().sum()), body_length(kind), "{kind}");
    }
}

/// Each in the place of the declaration `1 3 0 0`, the immediate, the MOV or END.
#[test]
fn malformed_lines() {
    let malformed: [(usize, &[&[u8]]); 4] = [
        (
            0,
            &[
                // Leading zeros.
                b"01 3 0 0\n",
                b"1 03 0 0\n",
                b"1 3 00 0\n",
                b"1 3 0 00\n",
                // Too large for a field of one byte or two.
                b"1 256 0 0\n",
                b"1 259 0 0\n",
                b"1 3 65536 0\n",
                b"1 3 0 65536\n",
                b"1 3 0 4294967296\n",
                b"1 3 0 18446744073709551616\n",
                // Spaces.
                b"1  3 0 0\n",
                b"1 3 0  0\n",
                b" 1 3 0 0\n",
                b"1 3 0 0 \n",
                // Other white space.
                b"1\t3 0 0\n",
                b"1 3 0 0\t\n",
                b"1 3 0 0\r\n",
                b"1 3 0 0\x0B\n",
                b"1\xC2\xA03 0 0\n",
                // Numbers missing and numbers too many.
                b"\n",
                b" \n",
                b"1\n",
                b"1 3\n",
                b"1 3 0\n",
                b"1 3 0 \n",
                b"1 3 0 0 0\n",
                b"1 3 0 0\n\n",
                // Two lines of one, one line of two.
                b"1 3\n0 0\n",
                b"1 3 0 0 ",
                b"1 3 0 0",
                // Kinds that are none.
                b"0 3 0 0\n",
                b"3 3 0 0\n",
                b"257 3 0 0\n",
                b"4294967297 3 0 0\n",
                b"18446744073709551617 3 0 0\n",
                // Characters that no number has.
                b"-1 3 0 0\n",
                b"+1 3 0 0\n",
                b"1 3 -0 0\n",
                b"1 3 +0 0\n",
                b"1 3 0 0.\n",
                b"1,3,0,0\n",
                b"1 0x3 0 0\n",
                b"1 3 0 /\n",
                b"1 3 0 :\n",
                b"1 3 0 0\0\n",
                b"\x001 3 0 0\n",
                b"1\x003 0 0\n",
                b"1 3 0 0\xFF\n",
                b"1 3 0 \xB0\n",
                b"1 3 0 \xD9\xA0\n",
                b"\xEF\xBB\xBF1 3 0 0\n",
            ],
        ),
        (
            1,
            &[
                b"2 4294967296 0 0 0\n",
                b"2 0 0 0 4294967321\n",
                b"2 0 0 18446744073709551616 0\n",
                b"2 25 0 0\n",
                b"2 25 0 0 0 0\n",
                b"2 25 0 0 0\r\n",
                b"2 0 0 0 123456789012345678901234567890123456789012345678901234567890\n",
                b"2 0 0 0 000000000000000000000000000000000000000000000000000000000025\n",
            ],
        ),
        (
            2,
            &[
                b"16 3 0 256 6 0 228 0\n",
                b"16 3 0 1 6 65536 228 0\n",
                b"16 3 0 1 6 0 484 0\n",
                b"16 3 0 1 6 0 228 256\n",
                b"16 3 0 1 6 0 228\n",
                b"31 3 0 1 6 0 228 0\n",
                b"272 3 0 1 6 0 228 0\n",
            ],
        ),
        (3, &[b"137", b"137 \n", b"0137\n", b"393\n", b"137 0\n", b"138\n", b"137\n\n", b"137\n0", b"137\n "]),
    ];
    for (line, texts) in malformed {
        for text in texts {
            // With two lines in the place of one, the second may be the malformed one.
            let whole = SMALL_LINES.split_inclusive('\n').nth(line).expect("a line").as_bytes();
            let before = if text.starts_with(whole) { whole.len() as u32 } else { 0 };
            let answer = read_with(line, text);
            assert_eq!(answer, Answer::refused(30, PLACES[line] + before), "{}", String::from_utf8_lossy(text));
        }
    }
}

/// The greatest number of each field, in a program that is refused for it later.
#[test]
fn greatest_numbers() {
    let spelled = |text: &str| crate::printout::spelled(text.as_bytes()).expect("no malformed line");
    assert_eq!(spelled("1 255 65535 65535\n"), write::declaration(255, 65_535, 65_535));
    assert_eq!(spelled("2 4294967295 0 10 9\n"), write::immediate([u32::MAX, 0, 10, 9]));
    assert_eq!(read(b"1 255 65535 65535\n"), Answer::refused(7, 0));
}

/// "30 .., then the read program's own, then 31 output short"
#[test]
fn order_in_reading() {
    // The declaration comes too late, its fields break a rule, and END is missing.
    let late = "128\n1 9 0 0\n";
    assert_eq!(read_into(late.as_bytes(), 0).0, Answer::refused(5, 1));
    assert_eq!(read_into(late.as_bytes(), 9).0, Answer::refused(5, 1));
    for (last, place) in [("128", 12), ("256\n", 12), ("128\n\n", 16), ("128\n137\n137\nx", 24)] {
        assert_eq!(read_into((late.to_string() + last).as_bytes(), 0).0, Answer::refused(30, place));
    }
    assert_eq!(read_into(b"x\ny\n", 0).0, Answer::refused(30, 0));
}

/// Places are those of the file that was read. No line is of an unknown kind or cut, so that 3 and 4 do not occur.
#[test]
fn refusals_of_the_read_program() {
    let head = "1 3 0 0\n2 1 2 3 4\n";
    let read_after_head = |text: &str| read((head.to_string() + text).as_bytes());
    assert_eq!(read_after_head("128\n137\n128\n"), Answer::refused(2, 25));
    assert_eq!(read_after_head("128\n2 0 0 0 0\n137\n"), Answer::refused(5, 24));
    assert_eq!(read_after_head(&("128\n".repeat(1024) + "137\n")), Answer::refused(6, 23 + 1024));
    assert_eq!(read_after_head(&("2 0 0 0 0\n".repeat(256) + "137\n")), Answer::refused(6, 23 + 255 * 17));
    assert_eq!(read_after_head("16 3 0 0 6 0 228 0\n137\n"), Answer::refused(7, 23));
    assert_eq!(read_after_head("1 3 0 31\n137\n"), Answer::refused(8, 23));
    assert_eq!(read_after_head("128\n16 3 1 1 6 0 228 0\n137\n"), Answer::refused(9, 24));
    assert_eq!(read_after_head("131\n137\n"), Answer::refused(10, 24));
    assert_eq!(read_after_head("145 6 0 0 0\n136\n137\n"), Answer::refused(11, 29));
    assert_eq!(read_after_head(&("131\n".repeat(17) + "137\n")), Answer::refused(12, 23 + 16));
    assert_eq!(read_after_head("128\n"), Answer::refused(13, 24));
}

#[test]
fn empty_listing() {
    assert_eq!(read_into(b"", 0).0, Answer::refused(13, 0));
    assert_eq!(print_into(b"", 0).0, Answer::refused(13, 0));
}

#[test]
fn listing_of_a_long_file() {
    let marks = |count: usize| "137\n".repeat(count);
    assert_eq!(read(marks(LONGEST_FILE).as_bytes()), Answer::refused(2, 1));
    assert_eq!(read(marks(LONGEST_FILE + 1).as_bytes()), Answer::refused(1, 0));
    assert_eq!(read((marks(LONGEST_FILE + 1) + "137").as_bytes()), Answer::refused(30, 4 * 65_537));
    // The last record goes past the limit.
    let last = "2 0 0 0 0\n";
    assert_eq!(read((marks(LONGEST_FILE - 16) + last).as_bytes()), Answer::refused(1, 0));
    assert_eq!(read((marks(LONGEST_FILE - 17) + last).as_bytes()), Answer::refused(2, 1));
}

/// "in printing, the program's own, then 31"
#[test]
fn order_in_printing() {
    let refusals = [
        (vec![END; LONGEST_FILE + 1], (1, 0)),
        (vec![END, END], (2, 1)),
        (vec![NOP, 0x1F], (3, 1)),
        (vec![NOP, MOV, TEMP, 0], (4, 1)),
        (vec![NOP, NOP], (13, 2)),
    ];
    for (file, (number, place)) in refusals {
        for length in [0, 100] {
            assert_eq!(print_into(&file, length), (Answer::refused(number, place), vec![]));
        }
    }
}

/// No accepted file has a longer listing.
#[test]
fn longest_of_all() {
    let file = longest_listing();
    let (answer, text) = print_into(&file, 97_951);
    assert_eq!((answer, file.len()), (Answer::done(97_951), 38_004));
    assert_eq!(read_into(&text, 38_004), (Answer::done(38_004), file.clone()));
    assert_eq!(print_into(&file, 97_950).0, Answer::refused(31, 0));
    assert_eq!(read_into(&text, 38_003).0, Answer::refused(31, 0));
}

/// The example's stored listing: `compare print ../examples/measure.bin`.
#[test]
fn listing_of_the_example() {
    let file = include_bytes!("../../../examples/measure.bin").to_vec();
    let text = include_bytes!("../../../examples/measure.listing").to_vec();
    assert_eq!(print_into(&file, text.len()), (Answer::done(text.len() as u32), text.clone()));
    assert_eq!(read_into(&text, file.len()), (Answer::done(file.len() as u32), file));
}
