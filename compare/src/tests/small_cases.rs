//! The thirteen small cases of document 01.

use super::*;
use crate::kinds::*;
use crate::write::from_hex;

/// The x of the result of one instruction whose sources are immediates, or xy with a 64-bit mask.
fn result(kind: u8, mask: u8, sources: &[[u32; 4]]) -> Vec<u32> {
    let mut records = vec![write::declaration(OUT, 0, 0)];
    records.extend(sources.iter().map(|words| write::immediate(*words)));
    let operands: Vec<[u8; 5]> = (0..sources.len()).map(|i| write::direct(IMM, i as u16)).collect();
    records.push(write::instruction(kind, write::destination(OUT, 0, mask), &operands));
    records.push(write::mark(END));
    let left = run(&records.concat(), &[], 2);
    assert_eq!(left.answer, Answer::done(2));
    left.registers[..4].to_vec()
}

fn x(kind: u8, words: &[u32]) -> u32 {
    let sources: Vec<[u32; 4]> = words.iter().map(|&word| [word, 0, 0, 0]).collect();
    result(kind, 1, &sources)[0]
}

#[test]
fn sums_and_comparisons() {
    assert_eq!(x(UADD, &[0xFFFF_FFFF, 1]), 0);
    assert_eq!(x(ISLT, &[0x8000_0000, 0]), 0xFFFF_FFFF);
    assert_eq!(x(USLT, &[0x8000_0000, 0]), 0);
}

#[test]
fn divisions() {
    assert_eq!(x(IDIV, &[0x8000_0000, 0xFFFF_FFFF]), 0x8000_0000);
    assert_eq!(x(MOD, &[0x8000_0000, 0xFFFF_FFFF]), 0);
    assert_eq!(x(UDIV, &[7, 0]), 0xFFFF_FFFF);
    assert_eq!(x(IDIV, &[7, 0]), 0);
    assert_eq!(x(MOD, &[7, 0]), 0xFFFF_FFFF);
    assert_eq!(x(UMOD, &[7, 0]), 0xFFFF_FFFF);
    assert_eq!(x(MOD, &[7u32.wrapping_neg(), 3]), 1u32.wrapping_neg());
}

#[test]
fn divisions_in_64_bits() {
    let least = [0, 0x8000_0000, 7, 0];
    let by = [0xFFFF_FFFF, 0xFFFF_FFFF, 0, 0];
    assert_eq!(result(I64DIV, 15, &[least, by]), [0, 0x8000_0000, 0, 0]);
    assert_eq!(result(I64MOD, 15, &[least, by]), [0, 0, u32::MAX, u32::MAX]);
    assert_eq!(result(U64DIV, 12, &[least, by]), [0, 0, u32::MAX, u32::MAX]);
    assert_eq!(result(U64MOD, 12, &[least, by]), [0, 0, u32::MAX, u32::MAX]);
    assert_eq!(result(I64ABS, 3, &[least]), [0, 0x8000_0000, 0, 0]);
}

#[test]
fn shifts() {
    assert_eq!(x(SHL, &[1, 33]), 2);
    // "from src1.x for xy and src1.y for zw"
    assert_eq!(result(U64SHL, 15, &[[1, 0, 1, 0], [32, 65, 9, 9]]), [0, 1, 2, 0]);
    assert_eq!(result(I64SHR, 15, &[[0, 0x8000_0000, 8, 0], [63, 2, 9, 9]]), [u32::MAX, u32::MAX, 2, 0]);
}

#[test]
fn bit_fields() {
    assert_eq!(x(UBFE, &[0x0000_ABCD, 4, 8]), 0xBC);
    assert_eq!(x(IBFE, &[0x0000_ABCD, 4, 8]), 0xFFFF_FFBC);
    assert_eq!(x(UBFE, &[0x0000_ABCD, 30, 3]), 0);
    assert_eq!(x(UBFE, &[0x0000_ABCD, 0, 32]), 0x0000_ABCD);
    assert_eq!(x(IBFE, &[0xFFFF_ABCD, 0, 32]), 0xFFFF_ABCD);
    // "over whole numbers": the sum of these wraps to 32.
    assert_eq!(x(UBFE, &[0xFFFF_FFFF, 0x8000_0010, 0x8000_0010]), 0);
    assert_eq!(x(UBFE, &[0xFFFF_FFFF, 0x7FFF_FFFF, 0x7FFF_FFFF]), 0);
    assert_eq!(x(BFI, &[0xFFFF_FFFF, 0, 8, 8]), 0xFFFF_00FF);
    assert_eq!(x(BFI, &[0x1234_5678, 0xFFFF_FFFF, 30, 3]), 0x1234_5678);
    assert_eq!(x(BFI, &[0x1234_5678, 0xFFFF_FFFF, 32, 0]), 0x1234_5678);
}

#[test]
fn bits_of_a_word() {
    assert_eq!(x(IMSB, &[0xFFFF_FFFE]), 0);
    assert_eq!(x(UMSB, &[1]), 0);
    assert_eq!(x(LSB, &[8]), 3);
    for (kind, word) in [(LSB, 0), (UMSB, 0), (IMSB, 0), (IMSB, 0xFFFF_FFFF)] {
        assert_eq!(x(kind, &[word]), 0xFFFF_FFFF);
    }
}

#[test]
fn sums_and_products_of_two_words() {
    assert_eq!(result(U64ADD, 3, &[[0xFFFF_FFFF, 0, 0, 0], [1, 0, 0, 0]]), [0, 1, 0, 0]);
    assert_eq!(x(UMUL_HI, &[0xFFFF_FFFF, 0xFFFF_FFFF]), 0xFFFF_FFFE);
    assert_eq!(x(IMUL_HI, &[0xFFFF_FFFF, 0xFFFF_FFFF]), 0);
}

#[test]
fn empty_file() {
    assert_eq!(check(&[]), Answer::refused(13, 0));
}

const CASE_12: &str = "
    01 03 00 00 00 00
    02 19 00 00 00 00 00 00 00 00 00 00 00 00 00 00 00
    10 03 00 00 01 06 00 00 E4 00
    89";

#[test]
fn whole_file() {
    let file = from_hex(CASE_12);
    assert_eq!(file.len(), 34);
    assert_eq!(Second::new().check(&file), Answer::done(2));
    let ended = run(&file, &[], 2);
    assert_eq!(ended.answer, Answer::done(2));
    assert_eq!(ended.registers[0], 25);
    assert!(ended.registers[1..REGISTER_WORDS].iter().all(|&word| word == 0));
    assert_eq!(ended.registers[REGISTER_WORDS..], [9]);
    assert_eq!(ended.work[..7], [23, 0, 0, 33, 0, 0, 9]);
    assert_eq!(run(&file, &[], 1).answer, Answer::halted(1, 1));
    let none = run(&file, &[], 0);
    assert_eq!(none.answer, Answer::halted(0, 0));
    assert!(none.registers[..REGISTER_WORDS].iter().all(|&word| word == 0));
}

#[test]
fn records_of_the_whole_file() {
    let file = from_hex(CASE_12);
    let parts = [(0, 6), (6, 17), (23, 10), (33, 1), (34, 0)];
    for (n, (start, length)) in parts.into_iter().enumerate() {
        assert_eq!(record(&file, n), Part { start, length });
    }
    assert_eq!(record(&file[..30], 1), Part { start: 6, length: 17 });
    assert_eq!(record(&file[..30], 2), Part { start: 30, length: 0 });
    // The walk goes on past END, and stops at an unknown kind.
    assert_eq!(record(&[END, NOP, 0xFF], 1), Part { start: 1, length: 1 });
    assert_eq!(record(&[END, NOP, 0xFF], 2), Part { start: 3, length: 0 });
    assert_eq!(record(&vec![NOP; LONGEST_FILE], LONGEST_FILE - 1), Part { start: LONGEST_FILE - 1, length: 1 });
    assert_eq!(record(&vec![NOP; LONGEST_FILE + 1], 0), Part { start: LONGEST_FILE + 1, length: 0 });
}

#[test]
fn loop_with_a_switch() {
    let [bgnloop, brk, endswitch, endloop, end] = [BGNLOOP, BRK, ENDSWITCH, ENDLOOP, END].map(write::mark);
    let body = vec![bgnloop, on(SWITCH, 0), on(CASE, 0), brk.clone(), endswitch, brk, endloop, end];
    assert_eq!(run(&with_head(body).concat(), &[], 100).answer, Answer::done(5));
}

#[test]
fn sources_are_read_before_writes() {
    // UADD T0, T0.yxwz, T1 with T0 = 0 1 2 3 and T1 = 0.
    let mov = write::instruction(MOV, write::destination(TEMP, 0, 15), &[write::direct(IMM, 0)]);
    let swapped = write::source(TEMP, 0, 0b10_11_00_01, 0);
    let add = write::instruction(UADD, write::destination(TEMP, 0, 15), &[swapped, write::direct(TEMP, 1)]);
    let left = run(&with_head(vec![mov, add, write::mark(END)]).concat(), &[], 9);
    assert_eq!(left.registers[128..132], [1, 0, 3, 2]);
}

#[test]
fn memory_words() {
    let store = |address: u8| {
        let sources = [write::source(IMM, 1, address, 0), write::direct(IMM, 0)];
        write::instruction(STORE, write::destination(MEM, 0, 0b1110), &sources)
    };
    let addresses = write::immediate([0, 2, 4, 0xFFFF_FFFC]);
    let file = |component| with_head(vec![addresses.clone(), store(component), write::mark(END)]).concat();
    assert_eq!(run(&file(0), &[7; 3], 9).memory, [7, 1, 2]);
    assert_eq!(run(&file(1), &[7; 3], 9).memory, [7; 3]);
    assert_eq!(run(&file(2), &[7; 3], 9).memory, [7, 7, 1]);
    // "no wrapping of the sum"
    assert_eq!(run(&file(3), &[7; 3], 9).memory, [7; 3]);
}

#[test]
fn indirect_reads() {
    // ADDR = -1, 2, 3, 0; TEMP 0 to 3 are declared.
    let mov = write::instruction(MOV, write::destination(TEMP, 3, 15), &[write::direct(IMM, 0)]);
    let uarl = write::instruction(UARL, write::destination(ADDR, 0, 15), &[write::direct(IMM, 1)]);
    let read = |index, component: u8| {
        let source = write::source(TEMP, index, write::STRAIGHT, 2 * component);
        write::instruction(MOV, write::destination(OUT, 0, 15), &[source])
    };
    for (index, component, words) in [(4, 1, SEEN), (1, 2, SEEN), (0, 1, [0; 4]), (1, 3, [0; 4]), (65_535, 1, [0; 4])] {
        let words_of_addr = write::immediate([u32::MAX, 2, 3, 0]);
        let body = vec![words_of_addr, mov.clone(), uarl.clone(), read(index, component), write::mark(END)];
        assert_eq!(run(&with_head(body).concat(), &[], 9).registers[..4], words);
    }
}

const SEEN: [u32; 4] = [0, 1, 2, 3];
