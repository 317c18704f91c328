//! The rules on a record's fields (refusal 7) and on what its operands name (refusal 9).

use crate::check::Program;
use crate::format::*;
use crate::kinds::*;

/// "A declaration names files 1-5 or 7, first at most last, last within the file."
pub fn declaration_is_sound(declaration: &Declaration) -> bool {
    let Declaration { file, first, last } = *declaration;
    matches!(file, 1..=5 | 7) && first <= last && (last as usize) < file_size(file)
}

pub fn instruction_is_sound(instruction: &Instruction) -> bool {
    let kind = instruction.kind;
    let destination = instruction.destination.iter().all(|d| destination_is_sound(kind, d));
    let sources = instruction.sources.iter().all(|s| source_is_sound(kind, s));
    destination && sources
}

/// "Destination OUT or TEMP; UARL only ADDR; STORE only MEM."
fn destination_is_sound(kind: u8, destination: &Destination) -> bool {
    let file = match kind {
        UARL => destination.file == ADDR,
        STORE => destination.file == MEM,
        _ => matches!(destination.file, OUT | TEMP),
    };
    file && mask_is_sound(kind, destination.mask)
}

/// "Mask 1-15; 64-bit results 3, 12 or 15; 64-bit comparisons (4D-52) 1, 4 or 5."
fn mask_is_sound(kind: u8, mask: u8) -> bool {
    if is_pair(kind) {
        matches!(mask, 3 | 12 | 15)
    } else if is_comparison64(kind) {
        matches!(mask, 1 | 4 | 5)
    } else {
        matches!(mask, 1..=15)
    }
}

fn source_is_sound(kind: u8, source: &Source) -> bool {
    if kind == CASE {
        return source.file == IMM && source.modifier == 0;
    }
    let file = matches!(source.file, CONST | IN | TEMP | IMM);
    let negate = !source.is_negated() || may_negate(kind);
    let indirect = source.address().is_none() || matches!(source.file, CONST | TEMP);
    file && source.modifier <= 9 && negate && indirect
}

/// An index beyond its file names a register that is not declared, so it is looked for here and not among the
/// field rules.
pub fn operands_are_declared(instruction: &Instruction, program: &Program) -> bool {
    let declared = &program.declared;
    let destination = instruction.destination.iter().all(|d| declared.has(d.file, d.index as i64));
    let sources = instruction.sources.iter().all(|source| match source.address() {
        Some(_) => declared.has(ADDR, 0) && declared.has_any(source.file),
        None if source.file == IMM => (source.index as usize) < program.immediates.len(),
        None => declared.has(source.file, source.index as i64),
    });
    let memory = !is_memory(instruction.kind) || declared.has(MEM, 0);
    destination && sources && memory
}
