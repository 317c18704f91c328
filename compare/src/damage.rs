//! Damage to files: without aim on their bytes and records, or with aim at one rule.

use crate::blocks;
use crate::format::*;
use crate::generate::{Draft, Maker};
use crate::kinds::{self, *};
use crate::random::Random;
use crate::write;

/// Bytes changed, cut, put in or taken out.
pub fn damage_bytes(random: &mut Random, file: &mut Vec<u8>) {
    for _ in 0..random.between(1, 3) {
        if file.is_empty() {
            return;
        }
        let at = random.below(file.len());
        match random.below(6) {
            0 | 1 => file[at] ^= 1 << random.below(8),
            2 => file[at] = random.next() as u8,
            3 => file.truncate(at),
            4 => file.insert(at, random.next() as u8),
            _ => drop(file.remove(at)),
        }
    }
}

/// Records swapped, doubled, taken out or moved.
pub fn damage_records(random: &mut Random, draft: &mut Draft) {
    for _ in 0..random.between(1, 2) {
        let records = &mut draft.records;
        let (a, b) = (random.below(records.len()), random.below(records.len()));
        match random.below(4) {
            0 => records.swap(a, b),
            1 => records.insert(a, records[b].clone()),
            2 if records.len() > 1 => drop(records.remove(a)),
            _ => {
                let record = records.remove(a);
                records.insert(b.min(records.len()), record);
            }
        }
    }
}

/// Records in any order, each with the fields its kind wants.
pub fn soup(random: &mut Random) -> Draft {
    const MARKS: [u8; 10] = [NOP, ELSE, ENDIF, BGNLOOP, ENDLOOP, BRK, CONT, DEFAULT, ENDSWITCH, END];
    let length = random.below(30);
    let mut maker = Maker::new(random, 60);
    for _ in 0..length {
        match maker.random.below(10) {
            0..=2 => maker.make_instruction(),
            3 => {
                let source = maker.source(UIF);
                maker.records.push(write::control(UIF, source));
            }
            4 => {
                let source = maker.small_source();
                maker.records.push(write::control(SWITCH, source));
            }
            5 | 6 => {
                let source = write::source(IMM, 0, maker.random.below(4) as u8, 0);
                maker.records.push(write::control(CASE, source));
            }
            _ => {
                let mark = maker.random.pick(&MARKS);
                maker.mark(mark);
            }
        }
    }
    maker.finish()
}

/// Damages a draft so that a refusal of this number, from 2 to 13, is likely. Refusal 4 is left to the bytes.
pub fn aim(random: &mut Random, draft: &mut Draft, number: u32) {
    match number {
        2 => add_tail(random, draft),
        3 => unknown_kind(random, draft),
        5 => late_head(random, draft),
        6 => too_many(random, draft),
        7 => break_field(random, draft),
        8 => overlap(random, draft),
        9 => undeclare(random, draft),
        10 => break_nesting(random, draft),
        11 => break_switch(random, draft),
        12 => nest_deeply(random, draft),
        _ => drop(draft.records.pop()),
    }
}

/// The place of some instruction's record, END among them.
fn some_instruction(random: &mut Random, draft: &Draft) -> usize {
    random.between(draft.head.min(draft.records.len() - 1), draft.records.len() - 1)
}

/// A program about as deep as is allowed; or a SWITCH as 16th block, with the 17th in the place of its first label.
fn nest_deeply(random: &mut Random, draft: &mut Draft) {
    if random.chance(80) {
        let levels = random.between(15, 18);
        *draft = blocks::deep_program(random, levels);
        return;
    }
    let of_immediate = write::source(IMM, 0, 0, 0);
    let uif = write::control(UIF, of_immediate);
    let mut records = vec![uif.clone(); random.between(14, 16)];
    records.push(write::control(SWITCH, of_immediate));
    records.push(if random.chance(50) { uif } else { write::mark(BGNLOOP) });
    draft.records.splice(draft.head..draft.head, records);
}

fn add_tail(random: &mut Random, draft: &mut Draft) {
    let tail = (0..random.between(1, 4)).map(|_| random.next() as u8).collect();
    let more = if random.chance(50) { tail } else { draft.records[random.below(draft.records.len())].clone() };
    draft.records.push(more);
}

fn unknown_kind(random: &mut Random, draft: &mut Draft) {
    let at = random.below(draft.records.len());
    let kind = random.next() as u8;
    if body_length(kind).is_none() {
        draft.records[at][0] = kind;
    } else {
        draft.records.insert(at, vec![random.pick(&[0x00, 0x03, 0x0F, 0x1F, 0x38, 0x53, 0x65, 0x8A, 0x93, 0xFF])]);
    }
}

fn late_head(random: &mut Random, draft: &mut Draft) {
    let at = some_instruction(random, draft);
    let record = draft.records[random.below(draft.head)].clone();
    draft.records.insert(at, write::mark(NOP));
    draft.records.insert(at + 1, record);
}

/// Up to 1,025 or 257 of them, or one less, which is not refused.
fn too_many(random: &mut Random, draft: &mut Draft) {
    if random.chance(50) {
        let wanted = random.between(1024, 1026);
        let missing = wanted.saturating_sub(draft.records.len() - draft.head);
        draft.records.splice(draft.head..draft.head, vec![write::mark(NOP); missing]);
        if random.chance(50) {
            // The one too many breaks another rule as well.
            let mov = |mask, index| {
                let destination = write::destination(TEMP, index, mask);
                write::instruction(MOV, destination, &[write::source(IMM, 0, 0, 0)])
            };
            let other = [mov(0, 0), mov(1, 300), write::mark(ENDIF), write::declaration(IN, 9, 8)];
            let at = draft.records.len().min(draft.head + 1024);
            draft.records.insert(at, other[random.below(4)].clone());
        }
    } else {
        let made = draft.records.iter().filter(|record| record[0] == IMMEDIATE).count();
        let missing = random.between(256, 258).saturating_sub(made);
        draft.records.splice(draft.head..draft.head, vec![write::immediate([7, 8, 9, 10]); missing]);
        draft.head += missing;
    }
}

/// The offsets of the bytes that field rules speak of: files, masks and modifiers, and ends of declarations.
fn ruled_bytes(record: &[u8]) -> Vec<usize> {
    let Some(kind) = kinds::instruction(record[0]) else {
        return if record[0] == DECLARATION { vec![1, 2, 3, 4, 5] } else { vec![] };
    };
    let first = 1 + 4 * kind.destinations;
    let mut offsets = if kind.destinations == 1 { vec![1, 4] } else { vec![] };
    for source in 0..kind.sources {
        offsets.extend([first + 5 * source, first + 5 * source + 4]);
    }
    offsets
}

fn break_field(random: &mut Random, draft: &mut Draft) {
    for _ in 0..20 {
        let anywhere = random.chance(30);
        let at = if anywhere { random.below(draft.records.len()) } else { some_instruction(random, draft) };
        let mut offsets = ruled_bytes(&draft.records[at]);
        // An earlier fault may have put in less than a whole record.
        offsets.retain(|&offset| offset < draft.records[at].len());
        if !offsets.is_empty() {
            let offset = random.pick(&offsets);
            draft.records[at][offset] = if random.chance(85) { random.below(18) as u8 } else { random.next() as u8 };
            return;
        }
    }
}

fn overlap(random: &mut Random, draft: &mut Draft) {
    let declarations: Vec<usize> = (0..draft.head).filter(|&i| draft.records[i][0] == DECLARATION).collect();
    if declarations.is_empty() {
        return;
    }
    let mut copy = draft.records[random.pick(&declarations)].clone();
    // The first moves down or the last moves up, so that the two are mostly different.
    let offset = random.pick(&[2, 4]);
    copy[offset] = if offset == 2 { copy[2].saturating_sub(1) } else { copy[4].saturating_add(1) };
    draft.records.insert(random.between(0, draft.head), copy);
    draft.head += 1;
}

/// Takes a declaration or immediate away, makes a source indirect, or changes an operand's index.
fn undeclare(random: &mut Random, draft: &mut Draft) {
    if draft.head > 0 && random.chance(40) {
        draft.records.remove(random.below(draft.head));
        draft.head -= 1;
        return;
    }
    let at = some_instruction(random, draft);
    let record = &mut draft.records[at];
    let is_control = record.len() == 6;
    if random.chance(50) {
        let first = if is_control { 1 } else { 5 };
        if first + 4 < record.len() {
            record[first] = random.pick(&[CONST, TEMP]);
            record[first + 4] = 2 * random.between(1, 4) as u8;
        }
        return;
    }
    let operand = if is_control || random.chance(30) { 1 } else { 5 };
    if operand + 2 < record.len() {
        record[operand + 1] = random.next() as u8;
        record[operand + 2] = if random.chance(80) { 0 } else { random.next() as u8 };
    }
}

fn break_nesting(random: &mut Random, draft: &mut Draft) {
    const MARKS: [u8; 9] = [ELSE, ENDIF, ENDLOOP, BRK, CONT, DEFAULT, ENDSWITCH, END, BGNLOOP];
    let at = some_instruction(random, draft);
    match random.below(3) {
        0 => draft.records[at] = write::mark(random.pick(&MARKS)),
        1 => draft.records.insert(at, write::mark(random.pick(&MARKS))),
        _ => draft.records.insert(at, write::control(CASE, write::source(IMM, 0, 0, 0))),
    }
}

/// Puts a wrong switch into the program, mostly followed by more of it.
fn break_switch(random: &mut Random, draft: &mut Draft) {
    let at = some_instruction(random, draft);
    let label = |component: u8| write::control(CASE, write::source(IMM, 0, component, 0));
    let [default, brk, end] = [DEFAULT, BRK, ENDSWITCH].map(write::mark);
    let list = match random.below(8) {
        0 => vec![end],
        1 => vec![default, end],
        2 => vec![label(0), brk, label(1), label(0), end],
        3 => vec![label(0), default.clone(), brk, default, end],
        4 => vec![label(0), default, label(1), end],
        5 => vec![brk, label(0), end],
        6 => vec![write::mark(BGNLOOP), write::mark(ENDLOOP), label(0), end],
        _ => vec![default, brk, label(0), end],
    };
    draft.records.splice(at..at, list);
    draft.records.insert(at, write::control(SWITCH, write::source(IMM, 0, 0, 0)));
}
