//! The checker: refusals 1 to 13, each at the record where it is due.

use crate::fields;
use crate::format::{file_size, record_at, Broken, Declaration, Instruction, Record, LONGEST_FILE};
use crate::kinds::*;

pub const MOST_INSTRUCTIONS: usize = 1024;
pub const MOST_IMMEDIATES: usize = 256;
pub const MOST_OPEN: usize = 16;

/// A refusal's number and byte place.
#[derive(Clone, Copy, PartialEq, Eq, Debug)]
pub struct Refusal {
    pub number: u32,
    pub place: usize,
}

/// Which registers of each file are declared.
#[derive(Clone, Debug)]
pub struct Declared([Vec<bool>; 8]);

impl Declared {
    fn none() -> Declared {
        Declared(std::array::from_fn(|file| vec![false; file_size(file as u8)]))
    }

    fn add(&mut self, declaration: &Declaration) {
        self.0[declaration.file as usize][declaration.first as usize..=declaration.last as usize].fill(true);
    }

    /// Any number may be asked for: outside its file nothing is declared.
    pub fn has(&self, file: u8, index: i64) -> bool {
        usize::try_from(index).ok().and_then(|i| self.0[file as usize].get(i)).copied().unwrap_or(false)
    }

    pub fn has_any(&self, file: u8) -> bool {
        self.0[file as usize].contains(&true)
    }

    /// Four words for each register up to the highest declared, "0 if none is declared".
    pub fn words_needed(&self, file: u8) -> usize {
        self.0[file as usize].iter().rposition(|&declared| declared).map_or(0, |highest| 4 * (highest + 1))
    }
}

/// An accepted program.
#[derive(Clone, Debug)]
pub struct Program {
    pub declared: Declared,
    pub immediates: Vec<[u32; 4]>,
    pub instructions: Vec<Instruction>,
}

/// A block that is open at the present record.
enum Open {
    If { has_else: bool },
    Loop,
    Switch { values: Vec<u32>, has_default: bool },
}

struct Checker {
    program: Program,
    open: Vec<Open>,
}

/// A refusal's number and whether a record is due it.
type Rule = (u32, fn(&Checker, &Record) -> bool);

/// The rules on one record, in the order of their numbers. A rule may rely on those above it.
const RULES: [Rule; 8] = [
    (5, Checker::comes_too_late),
    (6, Checker::is_one_too_many),
    (7, Checker::breaks_field_rule),
    (8, Checker::overlaps),
    (9, Checker::names_undeclared),
    (10, Checker::breaks_nesting),
    (11, Checker::breaks_switch_rule),
    (12, Checker::opens_too_many),
];

/// The program of a file, or the refusal.
pub fn check(file: &[u8]) -> Result<Program, Refusal> {
    if file.len() > LONGEST_FILE {
        return Err(Refusal { number: 1, place: 0 });
    }
    let program = Program { declared: Declared::none(), immediates: vec![], instructions: vec![] };
    let mut checker = Checker { program, open: vec![] };
    let mut place = 0;
    while place < file.len() {
        let record = checker.judge(file, place).map_err(|number| Refusal { number, place })?;
        checker.take(&record);
        place += 1 + record.body.len();
        if record.kind == END {
            // "a byte follows an END that no later row refuses (place of that byte)"
            return if place < file.len() { Err(Refusal { number: 2, place }) } else { Ok(checker.program) };
        }
    }
    Err(Refusal { number: 13, place: file.len() })
}

impl Checker {
    /// "within one record the lowest number that applies is given"
    fn judge<'a>(&self, file: &'a [u8], place: usize) -> Result<Record<'a>, u32> {
        let record = record_at(file, place).map_err(|broken| match broken {
            Broken::UnknownKind => 3u32,
            Broken::Cut => 4,
        })?;
        match RULES.iter().find(|(_, is_broken)| is_broken(self, &record)) {
            Some((number, _)) => Err(*number),
            None => Ok(record),
        }
    }

    fn comes_too_late(&self, record: &Record) -> bool {
        !record.is_instruction() && !self.program.instructions.is_empty()
    }

    fn is_one_too_many(&self, record: &Record) -> bool {
        match record.kind {
            DECLARATION => false,
            IMMEDIATE => self.program.immediates.len() == MOST_IMMEDIATES,
            _ => self.program.instructions.len() == MOST_INSTRUCTIONS,
        }
    }

    fn breaks_field_rule(&self, record: &Record) -> bool {
        match record.kind {
            DECLARATION => !fields::declaration_is_sound(&record.declaration()),
            IMMEDIATE => false,
            _ => !fields::instruction_is_sound(&record.instruction()),
        }
    }

    fn overlaps(&self, record: &Record) -> bool {
        if record.kind != DECLARATION {
            return false;
        }
        let Declaration { file, first, last } = record.declaration();
        (first..=last).any(|i| self.program.declared.has(file, i as i64))
    }

    fn names_undeclared(&self, record: &Record) -> bool {
        record.is_instruction() && !fields::operands_are_declared(&record.instruction(), &self.program)
    }

    fn breaks_nesting(&self, record: &Record) -> bool {
        let innermost = self.open.last();
        let some_loop = self.open.iter().any(|block| matches!(block, Open::Loop));
        let some_switch = self.open.iter().any(|block| matches!(block, Open::Switch { .. }));
        let fits = match record.kind {
            ELSE => matches!(innermost, Some(Open::If { has_else: false })),
            ENDIF => matches!(innermost, Some(Open::If { .. })),
            ENDLOOP => matches!(innermost, Some(Open::Loop)),
            CASE | DEFAULT | ENDSWITCH => matches!(innermost, Some(Open::Switch { .. })),
            BRK => some_loop || some_switch,
            CONT => some_loop,
            END => self.open.is_empty(),
            _ => true,
        };
        !fits
    }

    /// The value a CASE compares: "the component its swizzle's x selects".
    fn case_value(&self, record: &Record) -> u32 {
        let source = record.instruction().sources[0];
        self.program.immediates[source.index as usize][source.selects(0)]
    }

    fn breaks_switch_rule(&self, record: &Record) -> bool {
        let Some(Open::Switch { values, has_default }) = self.open.last() else { return false };
        match record.kind {
            CASE => *has_default || values.contains(&self.case_value(record)),
            DEFAULT => *has_default,
            ENDSWITCH => values.is_empty(),
            // With no label yet, this is the record right after the SWITCH.
            _ => values.is_empty() && !has_default,
        }
    }

    fn opens_too_many(&self, record: &Record) -> bool {
        matches!(record.kind, UIF | BGNLOOP | SWITCH) && self.open.len() == MOST_OPEN
    }

    /// Takes a record that no rule refuses.
    fn take(&mut self, record: &Record) {
        match record.kind {
            DECLARATION => return self.program.declared.add(&record.declaration()),
            IMMEDIATE => return self.program.immediates.push(record.immediate()),
            UIF => self.open.push(Open::If { has_else: false }),
            BGNLOOP => self.open.push(Open::Loop),
            SWITCH => self.open.push(Open::Switch { values: vec![], has_default: false }),
            ENDIF | ENDLOOP | ENDSWITCH => drop(self.open.pop()),
            ELSE | CASE | DEFAULT => self.mark(record),
            _ => {}
        }
        self.program.instructions.push(record.instruction());
    }

    /// Notes a mark in the innermost block.
    fn mark(&mut self, record: &Record) {
        let value = (record.kind == CASE).then(|| self.case_value(record));
        match self.open.last_mut() {
            Some(Open::If { has_else }) => *has_else = true,
            Some(Open::Switch { values, has_default }) => match value {
                Some(value) => values.push(value),
                None => *has_default = true,
            },
            _ => unreachable!("the nesting is sound"),
        }
    }
}
