//! Random accepted programs: blocks and what stands in them.

use crate::check::MOST_OPEN;
use crate::format::*;
use crate::generate::{Draft, Maker};
use crate::kinds::*;
use crate::random::Random;
use crate::write;

/// A program of about this many instructions at most, and of any nesting.
pub fn program(random: &mut Random, limit: usize) -> Draft {
    let mut maker = Maker::new(random, limit);
    while maker.instructions() < limit && !maker.random.chance(4) {
        maker.make_statement();
    }
    maker.finish()
}

/// A program with so many blocks open at its innermost place; over 16 it is refused.
pub fn deep_program(random: &mut Random, levels: usize) -> Draft {
    let mut maker = Maker::new(random, 200);
    maker.make_nest(levels);
    maker.make_statement();
    maker.finish()
}

impl Maker<'_> {
    /// One instruction or one whole block; false if it leaves its list.
    pub fn make_statement(&mut self) -> bool {
        let may_open = self.open.len() < MOST_OPEN && self.instructions() < self.limit;
        let may_break = self.open.iter().any(|&kind| kind != UIF);
        let may_continue = self.open.contains(&BGNLOOP);
        match self.random.below(100) {
            0..=8 if may_open => self.make_if(),
            9..=14 if may_open => self.make_loop(),
            15..=21 if may_open => self.make_switch(),
            22..=25 if may_break => self.mark(BRK),
            26..=27 if may_continue => self.mark(CONT),
            28 => self.mark(NOP),
            _ => self.make_instruction(),
        }
        !matches!(self.records.last().map(|record| record[0]), Some(BRK | CONT))
    }

    /// A few statements. Mostly nothing stands after a BRK or CONT, where it is not reached.
    fn make_statements(&mut self, most: usize) {
        for _ in 0..self.random.below(most + 1) {
            if !self.make_statement() && self.random.chance(80) {
                break;
            }
        }
    }

    fn begin(&mut self, kind: u8, record: Vec<u8>) {
        self.records.push(record);
        self.open.push(kind);
    }

    fn close(&mut self, kind: u8) {
        self.mark(kind);
        self.open.pop();
    }

    fn make_if(&mut self) {
        let source = if self.random.chance(50) { self.small_source() } else { self.source(UIF) };
        self.begin(UIF, write::control(UIF, source));
        self.make_statements(4);
        if self.random.chance(50) {
            self.mark(ELSE);
            self.make_statements(4);
        }
        self.close(ENDIF);
    }

    fn make_loop(&mut self) {
        self.begin(BGNLOOP, write::mark(BGNLOOP));
        if self.random.chance(75) {
            self.make_counter();
        }
        self.make_statements(5);
        if self.random.chance(25) {
            self.mark(BRK);
        }
        self.close(ENDLOOP);
    }

    /// Leaves the loop when a TEMP has counted to 3, unless something else writes it. Immediate 0 is 0 1 2 3.
    fn make_counter(&mut self) {
        let Some(temp) = self.register(TEMP) else { return self.mark(BRK) };
        let [one, three] = [1, 3].map(|component| write::source(IMM, 0, 0b0101_0101 * component, 0));
        let count = write::source(TEMP, temp, 0, 0);
        self.records.push(write::instruction(UADD, write::destination(TEMP, temp, 1), &[count, one]));
        self.records.push(write::instruction(USGE, write::destination(TEMP, temp, 2), &[count, three]));
        if self.open.len() == MOST_OPEN {
            return;
        }
        self.records.push(write::control(UIF, write::source(TEMP, temp, 0b0101_0101, 0)));
        self.mark(BRK);
        self.mark(ENDIF);
    }

    /// CASE records of different values, in any order.
    fn cases(&mut self) -> Vec<Vec<u8>> {
        let most = if self.random.chance(3) { 60 } else { 4 };
        let tries = self.random.between(1, most);
        let mut values = vec![];
        let mut cases = vec![];
        for _ in 0..tries {
            let index = if self.random.chance(50) { 0 } else { self.random.below(self.immediates.len()) };
            let component = self.random.below(4);
            let value = self.immediates[index][component];
            if !values.contains(&value) {
                values.push(value);
                let swizzle = component as u8 + 4 * self.random.below(64) as u8;
                cases.push(write::control(CASE, write::source(IMM, index as u16, swizzle, 0)));
            }
        }
        cases
    }

    fn make_switch(&mut self) {
        let source = if self.random.chance(80) { self.small_source() } else { self.source(SWITCH) };
        self.begin(SWITCH, write::control(SWITCH, source));
        for case in self.cases() {
            self.records.push(case);
            self.make_statements(2);
            if self.random.chance(40) {
                self.mark(BRK);
            }
        }
        if self.random.chance(50) {
            self.mark(DEFAULT);
            self.make_statements(3);
        }
        self.close(ENDSWITCH);
    }

    /// Blocks inside one another, so many levels of them, each likely to be entered.
    pub fn make_nest(&mut self, levels: usize) {
        if levels == 0 {
            return self.make_statements(3);
        }
        if self.random.chance(20) {
            self.make_instruction();
        }
        let one = write::source(IMM, 0, 0b0101_0101, 0);
        match self.random.below(4) {
            0 | 1 => {
                self.begin(UIF, write::control(UIF, one));
                self.make_nest(levels - 1);
                self.close(ENDIF);
            }
            2 => {
                self.begin(BGNLOOP, write::mark(BGNLOOP));
                self.make_nest(levels - 1);
                self.mark(BRK);
                self.close(ENDLOOP);
            }
            _ => {
                self.begin(SWITCH, write::control(SWITCH, one));
                self.records.push(write::control(CASE, one));
                self.make_nest(levels - 1);
                self.close(ENDSWITCH);
            }
        }
    }
}
