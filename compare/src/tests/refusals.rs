//! Refusals 1 to 13 with their places, and which one is given where several apply.

use super::*;
use crate::kinds::*;

/// The answer to the head, these records and END, with places counted from the body.
fn refusal(body: Vec<Vec<u8>>) -> (u32, u32) {
    let mut records = with_head(body);
    records.push(write::mark(END));
    let answer = check(&records);
    assert_eq!(answer.status, crate::runner::REFUSED, "{answer:?}");
    (answer.first, answer.second - BODY)
}

fn is_accepted(body: Vec<Vec<u8>>) -> bool {
    let mut records = with_head(body);
    records.push(write::mark(END));
    check(&records).status == crate::runner::DONE
}

fn mov(destination: [u8; 4], source: [u8; 5]) -> Vec<u8> {
    write::instruction(MOV, destination, &[source])
}

fn temp(mask: u8) -> [u8; 4] {
    write::destination(TEMP, 0, mask)
}

fn nop() -> Vec<u8> {
    write::mark(NOP)
}

#[test]
fn length_of_the_file() {
    let second = Second::new();
    assert_eq!(second.check(&vec![0xFF; LONGEST_FILE + 1]), Answer::refused(1, 0));
    assert_eq!(second.check(&vec![0xFF; LONGEST_FILE]), Answer::refused(3, 0));
}

#[test]
fn bytes_after_end() {
    assert_eq!(check(&[vec![END, 0xFF]]), Answer::refused(2, 1));
    assert_eq!(check(&[vec![NOP, END, END]]), Answer::refused(2, 2));
    // An END that is itself refused comes first.
    assert_eq!(check(&[vec![BGNLOOP, END, END]]), Answer::refused(10, 1));
    assert_eq!(check(&[vec![NOP; 1024], vec![END, END]]), Answer::refused(6, 1024));
}

#[test]
fn kinds_and_bodies() {
    assert_eq!(refusal(vec![nop(), vec![0x1F]]), (3, 1));
    for kind in 0..=255 {
        let number = check(&[vec![kind]]).first;
        match body_length(kind) {
            None => assert_eq!(number, 3),
            Some(0) => assert!(!matches!(number, 3 | 4)),
            Some(_) => assert_eq!(number, 4),
        }
    }
    assert_eq!(check(&[vec![NOP, MOV, TEMP, 0]]), Answer::refused(4, 1));
    // 4 is below 5: the declaration is cut.
    assert_eq!(check(&[vec![NOP, 1, 3, 0, 0, 0]]), Answer::refused(4, 1));
}

#[test]
fn late_declarations() {
    assert_eq!(refusal(vec![nop(), write::declaration(IN, 0, 0)]), (5, 1));
    assert_eq!(refusal(vec![nop(), write::immediate([0; 4])]), (5, 1));
    // 5 is below 7 and 8.
    assert_eq!(refusal(vec![nop(), write::declaration(9, 0, 0)]), (5, 1));
    assert_eq!(refusal(vec![nop(), write::declaration(TEMP, 0, 0)]), (5, 1));
}

#[test]
fn declarations() {
    for (file, first, last) in
        [(0, 0, 0), (6, 0, 0), (8, 0, 0), (IN, 2, 1), (IN, 0, 32), (ADDR, 0, 1), (CONST, 0, 1024)]
    {
        assert_eq!(refusal(vec![write::declaration(file, first, last)]), (7, 0));
    }
    assert_eq!(refusal(vec![write::declaration(TEMP, 3, 5)]), (8, 0));
    assert_eq!(refusal(vec![write::declaration(CONST, 0, 9), write::declaration(CONST, 4, 5)]), (8, 6));
    assert!(is_accepted(vec![write::declaration(TEMP, 4, 255), write::declaration(CONST, 1023, 1023)]));
}

#[test]
fn destinations() {
    let source = write::direct(TEMP, 0);
    for file in [0, CONST, IN, ADDR, IMM, MEM, 8] {
        assert_eq!(refusal(vec![mov(write::destination(file, 0, 1), source)]), (7, 0));
    }
    for mask in [0, 16, 255] {
        assert_eq!(refusal(vec![mov(temp(mask), source)]), (7, 0));
    }
    for (kind, file) in [(UARL, TEMP), (UARL, MEM), (STORE, TEMP), (STORE, ADDR), (LOAD, MEM)] {
        let sources = vec![source; instruction(kind).unwrap().sources];
        let record = write::instruction(kind, write::destination(file, 0, 1), &sources);
        assert_eq!(refusal(vec![record]), (7, 0));
    }
}

#[test]
fn masks_of_64_bit_kinds() {
    for kind in ALL.iter().filter(|kind| matches!(kind.byte, 0x1B..=0x1D | 0x40..=0x52)) {
        let allowed: &[u8] = if kind.byte >= 0x4D { &[1, 4, 5] } else { &[3, 12, 15] };
        for mask in 1..=15 {
            let record = write::instruction(kind.byte, temp(mask), &vec![write::direct(TEMP, 1); kind.sources]);
            assert_eq!(is_accepted(vec![record]), allowed.contains(&mask), "{} {mask}", kind.name);
        }
    }
}

#[test]
fn sources() {
    for file in [0, OUT, ADDR, MEM, 8] {
        assert_eq!(refusal(vec![mov(temp(1), write::direct(file, 0))]), (7, 0));
        assert_eq!(refusal(vec![write::control(UIF, write::direct(file, 0))]), (7, 0));
    }
    assert_eq!(refusal(vec![mov(temp(1), write::source(TEMP, 0, 0, 10))]), (7, 0));
    assert_eq!(refusal(vec![mov(temp(1), write::source(IMM, 0, 0, 2))]), (7, 0));
    assert_eq!(refusal(vec![write::control(UIF, write::source(TEMP, 0, 0, 1))]), (7, 0));
    assert_eq!(refusal(vec![on(SWITCH, 0), write::control(CASE, write::direct(TEMP, 0))]), (7, 6));
    assert_eq!(refusal(vec![on(SWITCH, 0), write::control(CASE, write::source(IMM, 0, 0, 2))]), (7, 6));
}

#[test]
fn negate_by_kind() {
    for kind in ALL.iter().filter(|kind| kind.destinations == 1) {
        let mask = if is_pair(kind.byte) { 3 } else { 1 };
        let destination = match kind.byte {
            UARL => write::destination(ADDR, 0, mask),
            STORE => write::destination(MEM, 0, mask),
            _ => temp(mask),
        };
        let sources = vec![write::source(TEMP, 0, 0, 1); kind.sources];
        let allowed = matches!(kind.byte, 0x12..=0x14 | 0x20..=0x37 | 0x60);
        assert_eq!(is_accepted(vec![write::instruction(kind.byte, destination, &sources)]), allowed, "{}", kind.name);
    }
}

#[test]
fn undeclared_operands() {
    let source = write::direct(TEMP, 0);
    for (file, index) in [(TEMP, 4), (TEMP, 300), (OUT, 2), (OUT, 32)] {
        assert_eq!(refusal(vec![nop(), mov(write::destination(file, index, 1), source)]), (9, 1));
    }
    for (file, index) in [(TEMP, 4), (TEMP, 300), (IMM, 1), (IMM, 300), (IN, 0), (CONST, 0), (CONST, 2000)] {
        assert_eq!(refusal(vec![mov(temp(1), write::direct(file, index))]), (9, 0));
    }
    let uarl = write::instruction(UARL, write::destination(ADDR, 1, 1), &[source]);
    assert_eq!(refusal(vec![uarl]), (9, 0));
    let store = write::instruction(STORE, write::destination(MEM, 1, 1), &[source; 2]);
    assert_eq!(refusal(vec![store]), (9, 0));
    assert_eq!(refusal(vec![on(SWITCH, 0), write::control(CASE, write::direct(IMM, 1))]), (9, 6));
    // The whole of CONST is undeclared; TEMP is not, and any index will do.
    assert_eq!(refusal(vec![mov(temp(1), write::source(CONST, 0, 0, 2))]), (9, 0));
    assert!(is_accepted(vec![mov(temp(1), write::source(TEMP, 65_535, 0, 8))]));
}

#[test]
fn addr_and_mem_undeclared() {
    let records = |record: Vec<u8>| vec![write::declaration(TEMP, 0, 0), record, vec![END]];
    assert_eq!(check(&records(mov(temp(1), write::source(TEMP, 0, 0, 2)))), Answer::refused(9, 6));
    for kind in ALL.iter().filter(|kind| matches!(kind.byte, 0x1E | 0x56..=0x5F | 0x64)) {
        let destination = if kind.byte == STORE { write::destination(MEM, 0, 1) } else { temp(1) };
        let record = write::instruction(kind.byte, destination, &vec![write::direct(TEMP, 0); kind.sources]);
        assert_eq!(check(&records(record)), Answer::refused(9, 6), "{}", kind.name);
    }
}

#[test]
fn nesting() {
    for kind in [ELSE, ENDIF, ENDLOOP, BRK, CONT, DEFAULT, ENDSWITCH] {
        assert_eq!(refusal(vec![nop(), write::mark(kind)]), (10, 1));
    }
    let marks = |kinds: &[u8]| kinds.iter().map(|&kind| write::mark(kind)).collect::<Vec<_>>();
    let after = |first: Vec<Vec<u8>>, kinds: &[u8]| refusal([first, marks(kinds)].concat());
    assert_eq!(refusal(vec![on(CASE, 0)]), (10, 0));
    assert_eq!(after(vec![on(UIF, 0)], &[ELSE, ELSE]), (10, 7));
    assert_eq!(after(vec![on(UIF, 0)], &[BRK]), (10, 6));
    assert_eq!(after(vec![on(UIF, 0)], &[]), (10, 6));
    assert_eq!(after(vec![write::mark(BGNLOOP), on(UIF, 0)], &[BRK, CONT, ENDLOOP]), (10, 9));
    assert_eq!(after(vec![on(SWITCH, 0), on(CASE, 0)], &[BRK, CONT]), (10, 13));
    assert_eq!(after(vec![on(SWITCH, 0), on(CASE, 0), on(UIF, 0)], &[DEFAULT]), (10, 18));
    assert_eq!(after(vec![], &[BGNLOOP, END]), (10, 1));
}

#[test]
fn switch_rules() {
    let [default, brk, endswitch, bgnloop] = [DEFAULT, BRK, ENDSWITCH, BGNLOOP].map(write::mark);
    let after = |list: Vec<Vec<u8>>| refusal([vec![on(SWITCH, 0)], list].concat());
    assert_eq!(after(vec![nop()]), (11, 6));
    assert_eq!(after(vec![brk.clone()]), (11, 6));
    assert_eq!(after(vec![bgnloop]), (11, 6));
    assert_eq!(after(vec![on(SWITCH, 0)]), (11, 6));
    assert_eq!(after(vec![endswitch.clone()]), (11, 6));
    assert_eq!(after(vec![default.clone(), brk, endswitch.clone()]), (11, 8));
    assert_eq!(after(vec![on(CASE, 1), on(CASE, 0), on(CASE, 1)]), (11, 18));
    assert_eq!(after(vec![on(CASE, 1), default.clone(), on(CASE, 0)]), (11, 13));
    assert_eq!(after(vec![on(CASE, 1), default.clone(), default.clone()]), (11, 13));
    assert_eq!(after(vec![default.clone(), on(CASE, 1)]), (11, 7));
    // 7, 9 and 10 are below 11: an unsound operand, an undeclared one, END in an open block.
    assert_eq!(after(vec![mov(temp(0), write::direct(TEMP, 0))]), (7, 6));
    assert_eq!(after(vec![mov(temp(1), write::direct(TEMP, 9))]), (9, 6));
    assert_eq!(after(vec![]), (10, 6));
    assert!(is_accepted(vec![on(SWITCH, 0), on(CASE, 1), default, endswitch]));
}

#[test]
fn switch_rule_before_depth() {
    let mut body = vec![write::mark(BGNLOOP); 15];
    body.push(on(SWITCH, 0));
    body.push(on(UIF, 0));
    assert_eq!(refusal(body), (11, 21));
}

#[test]
fn no_end() {
    assert_eq!(check(&head()), Answer::refused(13, BODY));
    assert_eq!(check(&[vec![BGNLOOP, ENDLOOP]]), Answer::refused(13, 2));
    assert_eq!(check(&with_head(vec![on(SWITCH, 0)])), Answer::refused(13, BODY + 6));
}
