//! The prepared table, from the nested lists: byte place, jump and label of each instruction.

use crate::check::Program;
use crate::format::Instruction;
use crate::kinds::*;
use crate::reading::{Item, List};

pub type Row = [u32; 3];

/// Where BRK and CONT of a list go; 0 where there is no such block.
#[derive(Clone, Copy)]
struct Exits {
    brk: usize,
    cont: usize,
}

pub fn rows(program: &Program, outermost: &List) -> Vec<Row> {
    let row = |instruction: &Instruction| [instruction.place as u32, 0, 0];
    let rows = program.instructions.iter().map(row).collect();
    let mut table = Table { instructions: &program.instructions, rows };
    table.list(outermost, Exits { brk: 0, cont: 0 });
    table.rows
}

struct Table<'a> {
    instructions: &'a [Instruction],
    rows: Vec<Row>,
}

/// The number after the last instruction of a list that holds at least its closing mark.
fn after(list: &List) -> usize {
    1 + list.last().expect("a closing mark").number()
}

impl Table<'_> {
    fn kind(&self, item: &Item) -> u8 {
        self.instructions[item.number()].kind
    }

    fn jump(&mut self, from: usize, to: usize) {
        self.rows[from][1] = to as u32;
    }

    fn list(&mut self, list: &List, exits: Exits) {
        for item in list {
            self.item(item, exits);
        }
    }

    fn item(&mut self, item: &Item, exits: Exits) {
        match item {
            Item::Plain(n) => match self.kind(item) {
                BRK => self.jump(*n, exits.brk),
                CONT => self.jump(*n, exits.cont),
                _ => {}
            },
            Item::If { opener, first, second } => {
                // Both are the number after the first part's mark: "after its ELSE, or after ENDIF if none".
                self.jump(*opener, after(first));
                if !second.is_empty() {
                    self.jump(after(first) - 1, after(second));
                }
                self.list(first, exits);
                self.list(second, exits);
            }
            Item::Loop { opener, list } => {
                self.jump(after(list) - 1, opener + 1);
                self.list(list, Exits { brk: after(list), cont: opener + 1 });
            }
            Item::Switch { opener, list } => {
                self.jump(*opener, after(list));
                self.labels(*opener, list);
                self.list(list, Exits { brk: after(list), ..exits });
            }
        }
    }

    /// "SWITCH its first label; CASE and DEFAULT the next label of their SWITCH, 0 for none."
    fn labels(&mut self, switch: usize, list: &List) {
        let mut previous = switch;
        for item in list {
            if matches!(self.kind(item), CASE | DEFAULT) {
                self.rows[previous][2] = item.number() as u32;
                previous = item.number();
            }
        }
    }
}
